// A program that changes files and folders, and has no realloc that it exports.
#include <dirent.h>
#include <fcntl.h>
#include <stdio.h>
#include <sys/stat.h>
#include <unistd.h>

int main(void) {
    struct stat status;
    DIR *folder = opendir(".");
    struct dirent *entry;
    while (folder && (entry = readdir(folder)))
        if (stat(entry->d_name, &status) == 0)
            printf("%s %ld\n", entry->d_name, (long)status.st_size);
    mkdir("made", 0700);
    rename("made", "renamed");
    symlink("renamed", "link");
    unlink("link");
    rmdir("renamed");
    return ftruncate(open("file", O_CREAT | O_WRONLY, 0600), 10);
}
