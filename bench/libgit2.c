// What libgit2 does of the workloads, on a bare repository; each prints what git prints of the same.
// usage: libgit2 ACTION FOLDER, the action being one of the table at the end; `show` reads lines `main:PATH`, and `move`, `rename` and `delete`
// read what git update-ref --stdin reads; a line of input is read first, replied to, and followed by another
#include <git2.h>
#include <stdio.h>
#include <stdlib.h>
#include <string.h>

static git_repository *repository;

static void must(int code)
{
	if (code < 0) {
		fprintf(stderr, "libgit2: %s\n", git_error_last() ? git_error_last()->message : "failed");
		exit(1);
	}
}

static void print_id(const git_oid *id, const char *rest)
{
	char text[GIT_OID_HEXSZ + 1];
	printf("%s%s\n", git_oid_tostr(text, sizeof text, id), rest);
}

static void walk(unsigned order)
{
	git_revwalk *commits;
	git_oid id;
	must(git_revwalk_new(&commits, repository));
	must(git_revwalk_sorting(commits, order));
	must(git_revwalk_push_ref(commits, "refs/heads/main"));
	while (git_revwalk_next(&id, commits) == 0)
		print_id(&id, "");
	git_revwalk_free(commits);
}

static void walk_topological(void) { walk(GIT_SORT_TOPOLOGICAL); }
static void walk_newest(void) { walk(GIT_SORT_TIME); }

static void show(void)
{
	char line[4200], rest[64];
	while (fgets(line, sizeof line, stdin)) {
		git_object *found;
		line[strcspn(line, "\n")] = 0;
		must(git_revparse_single(&found, repository, line));
		size_t length = git_blob_rawsize((git_blob *)found);
		snprintf(rest, sizeof rest, " blob %zu", length);
		print_id(git_object_id(found), rest);
		fwrite(git_blob_rawcontent((git_blob *)found), 1, length, stdout);
		putchar('\n');
		git_object_free(found);
	}
}

static int check_object(const git_oid *id, void *count)
{
	git_object *found;
	must(git_object_lookup(&found, repository, id, GIT_OBJECT_ANY));
	git_object_free(found);
	++*(long *)count;
	return 0;
}

static void check(void)
{
	git_odb *objects;
	long count = 0;
	must(git_repository_odb(&objects, repository));
	must(git_odb_foreach(objects, check_object, &count));
	printf("%ld objects\n", count);
	git_odb_free(objects);
}

// With the commit of each name, which is looked up, though only the name's own id is printed.
static void list(int has_commits)
{
	git_reference_iterator *every;
	git_reference *found;
	git_object *commit;
	char rest[1100];
	must(git_reference_iterator_new(&every, repository));
	while (git_reference_next(&found, every) == 0) {
		if (has_commits) {
			must(git_reference_peel(&commit, found, GIT_OBJECT_COMMIT));
			git_object_free(commit);
		}
		snprintf(rest, sizeof rest, " %s", git_reference_name(found));
		print_id(git_reference_target(found), rest);
		git_reference_free(found);
	}
	git_reference_iterator_free(every);
}

static void names(void) { list(0); }
static void names_peeled(void) { list(1); }

// The changes of a line are made at its `commit`, in one transaction.
static void change(void)
{
	git_transaction *changes = NULL;
	char line[4200], name[1100], to[1100];
	git_oid id;
	while (fgets(line, sizeof line, stdin)) {
		if (!strcmp(line, "start\n"))
			must(git_transaction_new(&changes, repository));
		else if (!strcmp(line, "commit\n")) {
			must(git_transaction_commit(changes));
			git_transaction_free(changes);
		} else if (sscanf(line, "update %1099s %1099s", name, to) == 2) {
			must(git_reference_name_to_id(&id, repository, to));
			must(git_transaction_lock_ref(changes, name));
			must(git_transaction_set_target(changes, name, &id, NULL, "Move"));
		} else if (sscanf(line, "delete %1099s", name) == 1) {
			must(git_transaction_lock_ref(changes, name));
			must(git_transaction_remove(changes, name));
		}
	}
}

// A line that creates a name at another is a rename of the other, which the deletion after it is a part of.
static void rename_all(void)
{
	char line[4200], new[1100], old[1100];
	git_reference *found, *renamed;
	while (fgets(line, sizeof line, stdin))
		if (sscanf(line, "create %1099s %1099s", new, old) == 2) {
			must(git_reference_lookup(&found, repository, old));
			must(git_reference_rename(&renamed, found, new, 0, "rename"));
			git_reference_free(renamed);
			git_reference_free(found);
		}
}

static void pack(void)
{
	git_refdb *all;
	must(git_repository_refdb(&all, repository));
	must(git_refdb_compress(all));
	git_refdb_free(all);
}

static const struct { const char *name; void (*act)(void); } actions[] = {
	{ "topological", walk_topological }, { "newest", walk_newest }, { "show", show }, { "check", check },
	{ "names", names }, { "names-peeled", names_peeled }, { "move", change }, { "delete", change }, { "rename", rename_all },
	{ "pack", pack },
};

int main(int count, char **words)
{
	char line[8];
	if (count != 3)
		return 2;
	must(git_libgit2_init());
	must(git_repository_open_bare(&repository, words[2]));
	if (!fgets(line, sizeof line, stdin) || puts("open") < 0 || fflush(stdout) != 0 || !fgets(line, sizeof line, stdin))
		return 2;
	for (size_t at = 0; at < sizeof actions / sizeof *actions; at++)
		if (!strcmp(actions[at].name, words[1])) {
			actions[at].act();
			git_repository_free(repository);
			return 0;
		}
	return 2;
}
