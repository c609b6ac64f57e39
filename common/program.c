#include "program.h"

#include <stdio.h>
#include <string.h>

/* The argument of an option: what follows its letter in the word, or the next word. */
static int take_argument(struct options *options, const char **argument) {
    if (*options->letter) {
        *argument = options->letter;
        options->letter = "";
        return 1;
    }
    if (options->next == options->count) return 0;
    *argument = options->words[options->next++];
    return 1;
}

static int take_letter(struct options *options, const char *known, const char **argument) {
    char letter = *options->letter++;
    const char *at = letter == ':' ? NULL : strchr(known, letter);
    if (!at) return OPTION_WRONG;
    return at[1] != ':' || take_argument(options, argument) ? letter : OPTION_WRONG;
}

int next_option(struct options *options, const char *known, const char **argument) {
    if (options->letter && *options->letter) return take_letter(options, known, argument);
    const char *word = options->next < options->count ? options->words[options->next] : "";
    if (word[0] != '-' || word[1] == '\0') return OPTIONS_END;
    options->next++;
    if (strcmp(word, "--") == 0) return OPTIONS_END;
    if (strcmp(word, "--help") == 0) return OPTION_HELP;
    if (strcmp(word, "--version") == 0) return OPTION_VERSION;
    options->letter = word + 1;
    return take_letter(options, known, argument);
}

enum status print_help(const struct program *program) {
    fputs(program->usage, stdout);
    return finish(ACCEPTED);
}

enum status print_version(const struct program *program) {
    puts(program->version);
    return finish(ACCEPTED);
}

enum status print_usage(const struct program *program) {
    fputs(program->usage, stderr);
    return NOT_READ;
}

enum status finish(enum status worst) {
    if (fflush(stdout) == 0 && !ferror(stdout)) return worst;
    fputs("what is due cannot be written\n", stderr);
    return NOT_READ;
}
