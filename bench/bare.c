// The bare calls: what any program must do that keeps the same files, with digests by OpenSSL, and nothing else.
// usage: bare write FOLDER < RECORDS, each `object LENGTH`, `append LENGTH PATH` or `replace LENGTH PATH`, a line, and then its bytes
//        bare read FOLDER < PATHS, a line each, which reads the files; bare digest FOLDER < PATHS, which has their digests too
// It prints what it did: how many files, and the bytes in them.
#define _GNU_SOURCE
#include <errno.h>
#include <fcntl.h>
#include <openssl/sha.h>
#include <stdio.h>
#include <stdlib.h>
#include <string.h>
#include <sys/stat.h>
#include <unistd.h>

static long files, bytes;
static char *given;
static size_t given_length;

static void must(int holds, const char *what)
{
	if (!holds) {
		perror(what);
		exit(1);
	}
}

static void read_given(void)
{
	size_t room = 1 << 16;
	ssize_t got;
	given = malloc(room);
	while (must(given != NULL, "memory"), (got = read(0, given + given_length, room - given_length)) > 0)
		if ((given_length += got) == room)
			given = realloc(given, room *= 2);
	must(got == 0, "standard input");
}

static void make_folders(const char *path)
{
	char folder[4096];
	for (const char *at = path; (at = strchr(at, '/')) != NULL; at++) {
		snprintf(folder, sizeof folder, "%.*s", (int)(at - path), path);
		must(mkdir(folder, 0777) == 0 || errno == EEXIST, folder);
	}
}

static void put(const char *path, int flags, const char *text, size_t length)
{
	int file = open(path, O_WRONLY | O_CREAT | flags, 0666);
	if (file < 0 && errno == ENOENT) {
		make_folders(path);
		file = open(path, O_WRONLY | O_CREAT | flags, 0666);
	}
	must(file >= 0, path);
	must(write(file, text, length) == (ssize_t)length, path);
	must(close(file) == 0, path);
	files++;
	bytes += length;
}

static void put_object(const char *text, size_t length)
{
	unsigned char digest[SHA_DIGEST_LENGTH];
	char path[64] = "objects/";
	SHA1((const unsigned char *)text, length, digest);
	for (int at = 0; at < SHA_DIGEST_LENGTH; at++)
		sprintf(path + 8 + 2 * at + (at > 0), at ? "%02x" : "%02x/", digest[at]);
	put("objects/unfinished", O_EXCL, text, length);
	if (rename("objects/unfinished", path) != 0) {
		make_folders(path);
		must(rename("objects/unfinished", path) == 0, path);
	}
}

static void write_all(void)
{
	for (char *at = given; at < given + given_length;) {
		char kind[16], path[4096] = "", lock[4200];
		char *end = memchr(at, '\n', given + given_length - at);
		size_t length;
		must(end != NULL, "a record");
		*end = 0;
		must(sscanf(at, "%15s %zu %4095s", kind, &length, path) >= 2, "a record");
		at = end + 1;
		if (kind[0] == 'o')
			put_object(at, length);
		else if (kind[0] == 'a')
			put(path, O_APPEND, at, length);
		else {
			snprintf(lock, sizeof lock, "%s.lock", path);
			put(lock, O_EXCL, at, length);
			must(rename(lock, path) == 0, path);
		}
		at += length;
	}
}

static void read_all(int has_digest)
{
	static char text[1 << 25];
	unsigned char digest[SHA_DIGEST_LENGTH];
	for (char *at = given, *end; at < given + given_length; at = end + 1) {
		end = memchr(at, '\n', given + given_length - at);
		must(end != NULL, "a path");
		*end = 0;
		int file = open(at, O_RDONLY);
		struct stat found;
		must(file >= 0 && fstat(file, &found) == 0 && found.st_size <= (off_t)sizeof text, at);
		must(read(file, text, found.st_size) == found.st_size, at);
		close(file);
		files++;
		bytes += found.st_size;
		if (has_digest)
			SHA1((unsigned char *)text, found.st_size, digest);
	}
}

int main(int count, char **words)
{
	if (count != 3)
		return 2;
	read_given();
	must(chdir(words[2]) == 0, words[2]);
	if (words[1][0] == 'w')
		write_all();
	else
		read_all(words[1][0] == 'd');
	printf("%ld files, %ld bytes\n", files, bytes);
	return 0;
}
