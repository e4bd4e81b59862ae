/*
 * For tools/compare_images: prints what message_manager_compare says of the images in two files, as image_compare does. The list that is
 * lent is longer than it need be, and full of a byte that must stay in every entry past the value, and in all of them after a refusal. With
 * room for fewer entries than an image has records, none and one less, the answer must be 16 too.
 */
#include "message_manager.h"

#include <stdio.h>
#include <stdlib.h>
#include <string.h>

enum { LENT = MESSAGE_MANAGER_IMAGE_RECORD_COUNT + 8, UNTOUCHED = 0xee };

static struct message_manager_difference list[LENT];

/* A file as far as there is room for it; its length. */
static size_t read_file(const char *name, uint8_t *bytes, size_t room)
{
    FILE *file = fopen(name, "rb");
    size_t length;
    if (file == NULL) {
        perror(name);
        exit(1);
    }
    length = fread(bytes, 1, room, file);
    fclose(file);
    return length;
}

/* The entries from `first` on are as they were before the call. */
static void expect_untouched(size_t first)
{
    const uint8_t *bytes = (const uint8_t *)list;
    size_t i;
    for (i = first * sizeof list[0]; i < sizeof list; i++)
        if (bytes[i] != UNTOUCHED) {
            printf("byte %zu of the list is %u\n", i, bytes[i]);
            return;
        }
}

static struct message_manager_result compare(
    const uint8_t *one, size_t one_size, const uint8_t *two, size_t two_size, size_t room)
{
    memset(list, UNTOUCHED, sizeof list);
    return message_manager_compare(one, one_size, two, two_size, list, room);
}

static void expect_refused(const uint8_t *one, size_t one_size, const uint8_t *two, size_t two_size, size_t room)
{
    const struct message_manager_result answer = compare(one, one_size, two, two_size, room);
    if (answer.status != MESSAGE_QUEUE_BAD_SHAPE || answer.value != 0 || answer.woken != 0)
        printf("room %zu: %u %u %u\n", room, answer.status, answer.value, answer.woken);
    expect_untouched(0);
}

int main(int argc, char **argv)
{
    static uint8_t one[2 * MESSAGE_MANAGER_IMAGE_SIZE], two[2 * MESSAGE_MANAGER_IMAGE_SIZE];
    static uint8_t one_before[sizeof one], two_before[sizeof two];
    size_t one_size, two_size;
    struct message_manager_result answer;
    uint32_t i;
    if (argc != 3)
        return 1;
    one_size = read_file(argv[1], one, sizeof one);
    two_size = read_file(argv[2], two, sizeof two);
    memcpy(one_before, one, sizeof one);
    memcpy(two_before, two, sizeof two);
    expect_refused(one, one_size, two, two_size, 0);
    expect_refused(one, one_size, two, two_size, MESSAGE_MANAGER_IMAGE_RECORD_COUNT - 1);
    answer = compare(one, one_size, two, two_size, LENT);
    if (answer.status != MESSAGE_QUEUE_SUCCESSFUL)
        printf("%u\n", answer.status);
    if (answer.woken != 0)
        printf("woken %u\n", answer.woken);
    for (i = 0; i < answer.value; i++)
        printf("%u %u %u %u\n", list[i].table, list[i].number, list[i].place, list[i].count);
    expect_untouched(answer.value);
    if (memcmp(one, one_before, sizeof one) != 0 || memcmp(two, two_before, sizeof two) != 0)
        printf("an image has changed\n");
    return 0;
}
