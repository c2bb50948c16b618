/* scene NAME FILE...: which scene each tag of that name sits in: asks a document for the name at any depth, and climbs from each match to the
 * nearest compound that has a SceneId (02, [7]). From the repository's folder:
 *
 *   cc -Wall -Wextra -Werror -Iinclude examples/scene.c target/native/libnbt.a -o scene && ./scene Footprint samples/reef.nbt */
#include "document.h"
#include <string.h>

/* The string so named in a compound, or 0, which is the root and no entry. In a list there is none: elements have no name. */
static size_t string_in(const struct document *d, size_t container, const char *name)
{
    size_t end = record_of(d, container)[TIKFAZRUL_END], length = strlen(name);
    for (size_t n = container + 1; n < end; n = record_of(d, n)[TIKFAZRUL_END]) {
        const uint32_t *r = record_of(d, n);
        if (r[TIKFAZRUL_KIND] == STRING && r[TIKFAZRUL_NAME_LENGTH] == length && !memcmp(d->bytes + r[TIKFAZRUL_NAME], name, length))
            return n;
    }
    return 0;
}

/* The SceneId nearest to a record, from its parent up to the root, or 0 if there is none. */
static size_t scene_of(const struct document *d, size_t n)
{
    size_t id = 0;
    while (n != 0 && id == 0) {
        n = record_of(d, n)[TIKFAZRUL_PARENT];
        id = string_in(d, n, "SceneId");
    }
    return id;
}

static void print_scene(const char *file, const struct document *d, size_t match)
{
    size_t id = scene_of(d, match);
    printf("%s %zu in ", file, match);
    if (id != 0)
        print_bytes(d->bytes + record_of(d, id)[TIKFAZRUL_START], record_of(d, id)[TIKFAZRUL_LENGTH]);
    else
        printf("no scene");
    putchar('\n');
}

/* Asks 04, 01 name: the name after zero or more levels. 0 if the query is answered, 1 if it is refused, 2 if there is no memory. */
static int ask(const char *file, const struct document *d, const char *name)
{
    size_t length = strlen(name);
    /* no name is longer, and its length would not go into two bytes */
    if (length > 65535)
        return 0;
    uint8_t *query = malloc(4 + length);
    uint32_t *list = calloc(d->records, sizeof *list);
    uint64_t answer[8] = {0};
    int status = query && list ? 0 : 2;
    if (status == 0) {
        memcpy(query, (uint8_t[]){4, 1, length >> 8, length & 255}, 4);
        memcpy(query + 4, name, length);
        tikfazrul_query(d->bytes, d->length, d->table, d->records * TIKFAZRUL_WORDS, query, 4 + length, list, d->records, answer);
        status = answer[0] != 0;
    }
    if (status == 1)
        printf("%s refused %" PRIu64 " %" PRIu64 "\n", file, answer[0], answer[1]);
    for (size_t i = 0; status == 0 && i < answer[2]; i++)
        print_scene(file, d, list[i]);
    free(query);
    free(list);
    return status;
}

int main(int count, char **names)
{
    int status = 0;
    for (int i = 2; i < count; i++) {
        struct document d;
        int result = open_document(names[i], TIKFAZRUL_JAVA, &d);
        if (result == 0)
            result = ask(names[i], &d, names[1]);
        close_document(&d);
        status = result > status ? result : status;
    }
    return status;
}
