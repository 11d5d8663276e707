/* Files written by hand, record by record, without the library. */
#include "calls.h"

#include <string.h>

static void put(struct file *file, const void *bytes, size_t length)
{
    memcpy(file->bytes + file->length, bytes, length);
    file->length += length;
}

static void put_number(struct file *file, size_t number)
{
    put(file, (const uint8_t[]){(uint8_t)(number % 256), (uint8_t)(number / 256)}, 2);
}

void put_header(struct file *file, size_t n, size_t r, size_t v)
{
    file->length = 0;
    put(file, "HD", 2);
    put_number(file, n);
    put(file, (const uint8_t[]){(uint8_t)r}, 1);
    put_number(file, v);
}

void put_weights(struct file *file, const struct list *list)
{
    put(file, "WT", 2);
    for (size_t i = 0; i < list->weights_len; i++)
        put_number(file, list->weights[i]);
}

void put_values(struct file *file, const char *packed, size_t length)
{
    put(file, "GV", 2);
    put(file, packed, length);
}

void put_rank(struct file *file, size_t entries, const unsigned *numbers)
{
    put(file, "RK", 2);
    for (size_t b = 0; b < entries; b++)
        put_number(file, numbers[b]);
}

void put_key(struct file *file, const void *code, size_t length)
{
    static const uint8_t filling[DS_LONGEST_CODE];
    put(file, "KY", 2);
    put(file, (const uint8_t[]){(uint8_t)length}, 1);
    put(file, code, length);
    put(file, filling, DS_LONGEST_CODE - length);
}

struct file *case_1_file(void)
{
    static struct file file;
    put_header(&file, 4, 2, 4);
    put_weights(&file, case_1());
    put_values(&file, "\x88\x5A", 2);
    put_rank(&file, 1, (const unsigned[]){0});
    put_key(&file, "DA", 2);
    put_key(&file, "BA", 2);
    put_key(&file, "BB", 2);
    put_key(&file, "BC", 2);
    return &file;
}

struct file *two_codes_file(void)
{
    static struct file file;
    char values[50];
    memset(values, 0xAA, sizeof values);
    values[10 / 4] = (char)0x8A;
    values[90 / 4] = (char)0x8A;
    put_header(&file, 2, 2, 100);
    put_weights(&file, list_of(2, 100, ""));
    put_values(&file, values, sizeof values);
    put_rank(&file, 4, (const unsigned[]){0, 1, 2, 2});
    put_key(&file, "\x0A\x05", 2);
    put_key(&file, "\x5A\x06", 2);
    return &file;
}
