/* Makes a script of the bytes that AFL++ tries: the text FEEDING_HEAD of the environment, their digits, and a line feed. checks/fuzz
   has AFL++ load it, so that what AFL++ changes are the bytes of a packet, and not their digits. */
#include <stdint.h>
#include <stdlib.h>
#include <string.h>

struct room {
    char *bytes;
    size_t size;
    /* How long the script in it is. */
    size_t made;
};

/* The room for a script, or nothing where memory is refused. */
void *afl_custom_init(void *afl, unsigned int seed) {
    (void)afl, (void)seed;
    return calloc(1, sizeof(struct room));
}

/* The script that feeds some bytes. Its length is given, or 0 where memory is refused. AFL++ hands a script back where it plays one
   input several times, and then it stays. */
size_t afl_custom_post_process(void *data, uint8_t *fed, size_t count, uint8_t **script) {
    static const char digits[] = "0123456789abcdef";
    struct room *room = data;
    if (room->bytes && fed == (uint8_t *)room->bytes) {
        *script = fed;
        return room->made;
    }
    const char *text = getenv("FEEDING_HEAD");
    size_t head = text ? strlen(text) : 0, size = head + 2 * count + 1;
    if (size > room->size) {
        char *more = realloc(room->bytes, size);
        if (!more) return 0;
        room->bytes = more, room->size = size;
    }
    if (head) memcpy(room->bytes, text, head);
    for (size_t i = 0; i < count; i++) {
        room->bytes[head + 2 * i] = digits[fed[i] >> 4];
        room->bytes[head + 2 * i + 1] = digits[fed[i] & 15];
    }
    room->bytes[size - 1] = '\n';
    *script = (uint8_t *)room->bytes;
    return room->made = size;
}

void afl_custom_deinit(void *data) {
    struct room *room = data;
    free(room->bytes);
    free(room);
}
