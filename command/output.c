/* Files that are written: whole, or the older ones stay. A file is written under a fresh name beside its own, and takes
 * its own when all are written. What is no regular file (a symbolic link, a device, a pipe) is written in place: there
 * a failure may leave a part. */
#define _POSIX_C_SOURCE 200809L
#include "command.h"

#include <errno.h>
#include <stdlib.h>
#include <string.h>
#include <sys/stat.h>
#include <unistd.h>

bool same_file(const char *input, const char *output)
{
    struct stat in, out;
    bool known = (strcmp(input, "-") == 0 ? fstat(STDIN_FILENO, &in) : stat(input, &in)) == 0;
    /* a device that was read loses nothing */
    return known && S_ISREG(in.st_mode) && stat(output, &out) == 0 && in.st_dev == out.st_dev &&
           in.st_ino == out.st_ino;
}

bool is_there(const char *name)
{
    struct stat is;
    return lstat(name, &is) == 0;
}

static int cannot(const char *name, int error)
{
    return stop(FAILED, "%s: it cannot be written: %s", name, strerror(error));
}

static int put_bytes(const struct output *file, FILE *out)
{
    errno = 0;
    size_t wrote = fwrite(file->bytes, 1, file->length, out);
    int error = wrote < file->length ? errno : 0;
    if (fclose(out) != 0 && !error)
        error = errno;
    return !error && wrote == file->length ? DONE : cannot(file->name, error);
}

/* Makes a file in the same folder that was not there; NULL with errno. Its name is not made of the file's own, which
 * may be as long as names can be. */
static FILE *open_fresh(struct output *file)
{
    const char *slash = strrchr(file->name, '/');
    size_t folder = slash ? (size_t)(slash + 1 - file->name) : 0, room = folder + 32;
    char *fresh = malloc(room);
    FILE *out = NULL;
    if (!fresh)
        return NULL;
    memcpy(fresh, file->name, folder);
    errno = EEXIST;
    for (unsigned i = 1; !out && errno == EEXIST && i < 10000; i++) {
        snprintf(fresh + folder, room - folder, "muruapy-%u.new", i);
        out = fopen(fresh, "wbx");
    }
    if (out)
        file->fresh = fresh;
    else
        free(fresh);
    return out;
}

/* Writes a file under a fresh name, unless it has to be written in place. */
static int put_beside(struct output *file)
{
    struct stat is;
    bool older = lstat(file->name, &is) == 0;
    if (older && !S_ISREG(is.st_mode))
        return DONE;
    /* a new name would pass over the protection of the older file */
    if (older && access(file->name, W_OK) != 0)
        return cannot(file->name, errno);
    FILE *out = open_fresh(file);
    if (!out)
        return cannot(file->name, errno);
    if (older)
        fchmod(fileno(out), is.st_mode & 0777);
    return put_bytes(file, out);
}

static int put_in_place(const struct output *file)
{
    FILE *out = fopen(file->name, "wb");
    return out ? put_bytes(file, out) : cannot(file->name, errno);
}

static int put_name(struct output *file)
{
    if (rename(file->fresh, file->name) != 0)
        return cannot(file->name, errno);
    free(file->fresh);
    file->fresh = NULL;
    return DONE;
}

/* What was read is not written over, nor one of the files by another. */
static int look_at(const struct output *files, size_t count, const char *input)
{
    for (size_t i = 0; i < count; i++) {
        if (same_file(input, files[i].name))
            return stop(MISUSED, "%s would be written over: it is the input", files[i].name);
        for (size_t j = 0; j < i; j++)
            if (same_file(files[j].name, files[i].name))
                return stop(MISUSED, "%s and %s are one file", files[j].name, files[i].name);
    }
    return DONE;
}

int put_files(struct output *files, size_t count, const char *input)
{
    int status = look_at(files, count, input);
    for (size_t i = 0; status == DONE && i < count; i++)
        status = put_beside(&files[i]);
    for (size_t i = 0; status == DONE && i < count; i++)
        if (!files[i].fresh)
            status = put_in_place(&files[i]);
    for (size_t i = 0; status == DONE && i < count; i++)
        if (files[i].fresh)
            status = put_name(&files[i]);
    for (size_t i = 0; i < count; i++)
        if (files[i].fresh) {
            remove(files[i].fresh);
            free(files[i].fresh);
        }
    return status;
}
