/* Cuts a file into the ten fragments of a stripe of the (6,2,2) code, rebuilds fragments that are lost, and joins them again.
 *
 *     fragments encode FILE FOLDER     writes FOLDER/x0 to FOLDER/p1, and FOLDER/length: the file's
 *     fragments rebuild FOLDER         writes the fragments that FOLDER lacks, once all checks of the others hold
 *     fragments decode FOLDER FILE     writes the file from the data fragments
 *
 *     cc -o fragments fragments.c $(pkg-config --cflags --libs lrc) -Wl,-rpath,$(pkg-config --variable=libdir lrc) */
#include <lrc.h>
#include <stdio.h>
#include <stdlib.h>
#include <string.h>

enum { MOST_NAME = 4096 };

static void stop(const char *what, const char *name)
{
    fprintf(stderr, "fragments: %s %s\n", what, name);
    exit(1);
}

static void *room(size_t size)
{
    void *at = calloc(size != 0 ? size : 1, 1);
    if (at == NULL)
        stop("no memory", "");
    return at;
}

/* The bytes of a file, and how many there are; null where there is no file. */
static uint8_t *read_file(const char *name, size_t *size)
{
    FILE *file = fopen(name, "rb");
    if (file == NULL)
        return NULL;
    long end = fseek(file, 0, SEEK_END) == 0 ? ftell(file) : -1;
    if (end < 0 || fseek(file, 0, SEEK_SET) != 0)
        stop("can't read", name);
    *size = (size_t)end;
    uint8_t *bytes = room(*size);
    if (fread(bytes, 1, *size, file) != *size)
        stop("can't read", name);
    fclose(file);
    return bytes;
}

static void write_file(const char *name, const uint8_t *bytes, size_t size)
{
    FILE *file = fopen(name, "wb");
    if (file == NULL || fwrite(bytes, 1, size, file) != size || fclose(file) != 0)
        stop("can't write", name);
}

static const char *in_folder(const char *folder, const char *name)
{
    static char path[MOST_NAME];
    if (snprintf(path, sizeof path, "%s/%s", folder, name) >= (int)sizeof path)
        stop("the name is too long:", folder);
    return path;
}

static void encode(const char *name, const char *folder)
{
    uint8_t *fragments[LRC_PLACES] = {0};
    size_t size, count = lrc_data_count(LRC_6_2_2);
    uint8_t *bytes = read_file(name, &size);
    if (bytes == NULL)
        stop("can't read", name);
    /* The last data fragments are filled up with zeros. */
    size_t length = size / count + 1;
    for (int p = LRC_X0; p <= LRC_P1; p++)
        fragments[p] = room(length);
    for (size_t i = 0, from = 0; i < count; i++, from += length)
        if (from < size)
            memcpy(fragments[lrc_data_place(LRC_6_2_2, i)], bytes + from, size - from < length ? size - from : length);
    uint32_t status = lrc_encode(LRC_6_2_2, fragments, length);
    if (status != LRC_OK)
        stop("encode:", lrc_status_text(status));
    for (int p = LRC_X0; p <= LRC_P1; p++) {
        write_file(in_folder(folder, lrc_place_name((enum lrc_place)p)), fragments[p], length);
        free(fragments[p]);
    }
    char text[32];
    int written = snprintf(text, sizeof text, "%zu\n", size);
    write_file(in_folder(folder, "length"), (const uint8_t *)text, (size_t)written);
    free(bytes);
}

static void rebuild(const char *folder)
{
    const uint8_t *left[LRC_PLACES] = {0};
    uint8_t *read[LRC_PLACES] = {0}, *outs[LRC_PLACES];
    enum lrc_place lost[LRC_PLACES];
    uint32_t statuses[LRC_PLACES];
    size_t length = 0, count = 0;
    for (int p = LRC_X0; p <= LRC_P1; p++) {
        const char *name = lrc_place_name((enum lrc_place)p);
        size_t size = 0;
        read[p] = read_file(in_folder(folder, name), &size);
        left[p] = read[p];
        if (read[p] == NULL)
            lost[count++] = (enum lrc_place)p;
        else if (length != 0 && size != length)
            stop("another length:", name);
        else
            length = size;
    }
    if (length == 0)
        stop("there is no fragment with a byte in", folder);
    for (size_t i = 0; i < count; i++)
        outs[i] = room(length);
    uint32_t worst = count == 0 ? lrc_verify(LRC_6_2_2, left, length)
                                : lrc_rebuild_many(LRC_6_2_2, left, lost, outs, statuses, count, length);
    if (count == 0 || worst == LRC_BAD_ARGUMENT)
        printf("%s\n", lrc_status_text(worst));
    for (size_t i = 0; i < count && worst != LRC_BAD_ARGUMENT; i++) {
        const char *name = lrc_place_name(lost[i]);
        printf("%s: %s\n", name, lrc_status_text(statuses[i]));
        if (statuses[i] == LRC_OK)
            write_file(in_folder(folder, name), outs[i], length);
    }
    for (size_t i = 0; i < count; i++)
        free(outs[i]);
    for (int p = LRC_X0; p <= LRC_P1; p++)
        free(read[p]);
    if (worst != LRC_OK)
        exit(1);
}

static void decode(const char *folder, const char *name)
{
    size_t length = 0, size = 0, written = 0, digits = 0;
    uint8_t *text = read_file(in_folder(folder, "length"), &digits);
    FILE *file = fopen(name, "wb");
    if (text == NULL || file == NULL)
        stop("can't decode to", name);
    for (size_t i = 0; i < digits && text[i] >= '0' && text[i] <= '9'; i++)
        size = size * 10 + (size_t)(text[i] - '0');
    for (size_t i = 0; i < lrc_data_count(LRC_6_2_2); i++) {
        const char *place = lrc_place_name(lrc_data_place(LRC_6_2_2, i));
        uint8_t *bytes = read_file(in_folder(folder, place), &length);
        if (bytes == NULL)
            stop("rebuild first: there is no", place);
        size_t part = size - written < length ? size - written : length;
        if (fwrite(bytes, 1, part, file) != part)
            stop("can't write", name);
        written += part;
        free(bytes);
    }
    if (fclose(file) != 0)
        stop("can't write", name);
    free(text);
}

int main(int count, char **words)
{
    if (lrc_version() != LRC_VERSION_NUMBER)
        stop("another version of the library than", LRC_VERSION);
    if (count == 4 && strcmp(words[1], "encode") == 0)
        encode(words[2], words[3]);
    else if (count == 3 && strcmp(words[1], "rebuild") == 0)
        rebuild(words[2]);
    else if (count == 4 && strcmp(words[1], "decode") == 0)
        decode(words[2], words[3]);
    else {
        fprintf(stderr, "fragments encode FILE FOLDER | rebuild FOLDER | decode FOLDER FILE\n");
        return 2;
    }
    return 0;
}
