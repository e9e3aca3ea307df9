// Lists a folder and all folders below it, reads every file whole into memory, and keeps the bytes. The peer of
// package_info in run.py, and no part of the product.
#include <dirent.h>
#include <stdio.h>
#include <stdlib.h>
#include <string.h>
#include <sys/stat.h>

static size_t total;

static void fail(const char *path) {
    perror(path);
    exit(1);
}

static void read_file(const char *path, size_t size) {
    FILE *file = fopen(path, "rb");
    char *bytes = malloc(size + 1);
    if (!file || !bytes) fail(path);
    setvbuf(file, NULL, _IONBF, 0);
    if (fread(bytes, 1, size, file) != size) fail(path);
    fclose(file);
    total += size;
}

static void read_folder(const char *path) {
    DIR *folder = opendir(path);
    if (!folder) fail(path);
    for (struct dirent *entry; (entry = readdir(folder));) {
        if (strcmp(entry->d_name, ".") == 0 || strcmp(entry->d_name, "..") == 0) continue;
        char inner[4097];
        snprintf(inner, sizeof inner, "%s/%s", path, entry->d_name);
        struct stat about;
        if (stat(inner, &about) != 0) fail(inner);
        if (S_ISDIR(about.st_mode)) read_folder(inner);
        else read_file(inner, (size_t)about.st_size);
    }
    closedir(folder);
}

int main(int argc, char **argv) {
    if (argc != 2) return 2;
    read_folder(argv[1]);
    printf("%zu bytes\n", total);
    return 0;
}
