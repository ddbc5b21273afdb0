// Runs a command so often, each time on the whole of standard input, a file, and writes on descriptor 3 its status, its processor time in
// microseconds and its greatest memory in KiB, with what it starts and waits for. It is small, so that its memory isn't taken for theirs.
// What the command takes until it has replied to the first so many bytes of its input isn't counted; standard output then is a file.
// usage: spent COUNT FIRST COMMAND.. 3> RESULT
#include <signal.h>
#include <stdio.h>
#include <stdlib.h>
#include <sys/resource.h>
#include <sys/stat.h>
#include <sys/wait.h>
#include <time.h>
#include <unistd.h>

static long long microseconds(struct timeval it) { return it.tv_sec * 1000000LL + it.tv_usec; }

// Hands on so many bytes of standard input, or all that there are.
static void hand_on(int out, long long left)
{
	static char some[1 << 16];
	ssize_t got;
	while (left > 0 && (got = read(0, some, left < (long long)sizeof some ? left : sizeof some)) > 0) {
		for (ssize_t done = 0, now; done < got; done += now)
			if ((now = write(out, some + done, got - done)) <= 0)
				return;
		left -= got;
	}
}

static off_t output_length(void)
{
	struct stat output = { 0 };
	fstat(1, &output);
	return output.st_size;
}

// Hands on the input, and returns what the command took until its reply to the first part.
static long long taken_before(pid_t child, int out, long long first, off_t length)
{
	struct timespec taken = { 0 };
	siginfo_t ended = { 0 };
	clockid_t clock;
	hand_on(out, first);
	while (output_length() == length && waitid(P_PID, child, &ended, WEXITED | WNOHANG | WNOWAIT) == 0 && !ended.si_pid)
		usleep(1000);
	if (clock_getcpuclockid(child, &clock) == 0)
		clock_gettime(clock, &taken);
	hand_on(out, 1LL << 62);
	close(out);
	return taken.tv_sec * 1000000LL + taken.tv_nsec / 1000;
}

int main(int count, char **words)
{
	int status = 0, ends[2] = { 0, -1 };
	long long first = count < 4 ? 0 : atoll(words[2]), before = 0;
	if (count < 4)
		return 2;
	signal(SIGPIPE, SIG_IGN);
	for (int left = atoi(words[1]); left > 0 && status == 0; left--) {
		off_t length = output_length();
		lseek(0, 0, SEEK_SET);
		if (first > 0 && pipe(ends) != 0)
			return 1;
		pid_t child = fork();
		if (child == 0) {
			close(3);
			dup2(ends[0], 0);
			close(ends[1]);
			signal(SIGPIPE, SIG_DFL);
			execvp(words[3], words + 3);
			_exit(127);
		}
		if (first > 0) {
			close(ends[0]);
			before += taken_before(child, ends[1], first, length);
		}
		if (child < 0 || waitpid(child, &status, 0) < 0)
			return 1;
	}
	struct rusage used;
	getrusage(RUSAGE_CHILDREN, &used);
	dprintf(3, "%d %lld %ld\n", WIFEXITED(status) ? WEXITSTATUS(status) : 128 + WTERMSIG(status),
		microseconds(used.ru_utime) + microseconds(used.ru_stime) - before, used.ru_maxrss);
	return 0;
}
