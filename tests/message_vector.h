/* The vectors of examples/messages.txt, one at a time; examples/README.md has their form. */
#ifndef MESSAGE_VECTOR_H
#define MESSAGE_VECTOR_H

#include "vector.h"

/* What is given and what is expected; the words of `init` and `codecs` and the message are the one or the other. */
struct message_vector {
    char name[256];
    int writes;
    struct bytes message, init, codecs, given;
    size_t room;
    uint32_t number, place;
};

/* The next vector of the file; 0 where there is none. */
static inline int next_message(FILE *file, struct message_vector *now)
{
    static struct vector names_it; /* for what vector.h says of a vector that is none */
    static char line[1 << 18];
    memset(now, 0, sizeof *now);
    while (fgets(line, sizeof line, file) != NULL) {
        char *rest = strchr(line, ' ');
        line[strcspn(line, "\n")] = '\0';
        rest = rest == NULL ? line + strlen(line) : rest + 1;
        if (strncmp(line, "case ", 5) == 0) {
            snprintf(now->name, sizeof now->name, "%s", rest);
            memcpy(names_it.name, now->name, sizeof now->name);
        } else if (strncmp(line, "message ", 8) == 0)
            set_hex(&names_it, &now->message, rest);
        else if (strncmp(line, "words ", 6) == 0)
            now->room = 4 * strtoul(rest, NULL, 10);
        else if (strncmp(line, "init ", 5) == 0)
            add_words(&now->init, rest);
        else if (strncmp(line, "codecs ", 7) == 0)
            add_words(&now->codecs, rest);
        else if (strncmp(line, "given ", 6) == 0)
            set_hex(&names_it, &now->given, rest);
        else if (strncmp(line, "room ", 5) == 0) {
            now->writes = 1;
            now->room = strtoul(rest, NULL, 10);
        } else if (strncmp(line, "answer ", 7) == 0) {
            now->number = (uint32_t)strtoul(rest, &rest, 10);
            now->place = (uint32_t)strtoul(rest, NULL, 10);
        } else if (strcmp(line, "end") == 0)
            return 1;
        else if (line[0] != '\0' && line[0] != '#')
            no_vector(&names_it, line);
    }
    return 0;
}

#endif
