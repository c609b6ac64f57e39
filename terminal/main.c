/* Judges table records: a line for each, the judgement or the refusal in words, and the play where it is asked for; or writes one from words. */
#include <stdio.h>
#include <stdlib.h>

#include "input.h"
#include "judged.h"
#include "play.h"
#include "program.h"
#include "refusal.h"
#include "version.h"
#include "words.h"
#include "write.h"

static const struct program PROGRAM = {
    "usage: terminal [-v] [-b | -x] [FILE]...\n"
    "       terminal -w [FILE]\n"
    "Judges the table record in each FILE, or in standard input where there is none or it is -.\n"
    "A file is read as bytes, or as hexadecimal where its name ends in .hex; -b and -x say so for all.\n"
    "With -v, the play follows trick by trick, with the card that won.\n"
    "With -w, writes the bytes of the record that FILE, or standard input, has in words, as samples/README.md describes them.\n"
    "Among the cards ?C7 is the seven of clubs exposed by accident, !C7 deliberately, +C clubs required of the lead, -C forbidden.\n"
    "Calls and plays count from 0. Exits 0 if all were accepted, 1 if one was refused, 2 if one could not be read or written.\n"
    "       terminal --help, terminal --version\n",
    "terminal (" JUDGE_VERSION_WORDS ")"};

/* What was asked for; a letter for the form, 0 where none was given. */
struct asked {
    int form, tricks;
};

static enum status judge(const char *name, const struct bytes *record, int tricks) {
    struct judged judged = judge_bytes(record->at, record->length);
    if (judged.number != 0) {
        printf("%s: refused, ", name);
        print_refusal(stdout, judged.number);
        return REFUSED;
    }
    print_judgement(stdout, record, &judged);
    if (tricks) print_play(stdout, record->at, &judged);
    return ACCEPTED;
}

static enum status judge_file(const char *name, const struct asked *asked) {
    struct bytes record;
    enum form form = asked->form == 'b' ? BINARY : asked->form == 'x' ? HEX : BY_NAME;
    enum status status = read_input(name, form, &record) ? judge(shown_name(name), &record, asked->tricks) : NOT_READ;
    free(record.at);
    return status;
}

static enum status run(const struct asked *asked, int count, char **names) {
    enum status worst = ACCEPTED;
    if (asked->form == 'w') return finish(write_file(count > 0 ? names[0] : "-"));
    if (count == 0) worst = judge_file("-", asked);
    for (int k = 0; k < count; k++) worst = worse(worst, judge_file(names[k], asked));
    return finish(worst);
}

int main(int count, char **words) {
    struct options options = {count, words, 1, NULL};
    struct asked asked = {0, 0};
    const char *argument = NULL;
    for (int option; (option = next_option(&options, "bvwx", &argument)) != OPTIONS_END;) {
        if (option == OPTION_HELP) return print_help(&PROGRAM);
        if (option == OPTION_VERSION) return print_version(&PROGRAM);
        if (option == OPTION_WRONG) return print_usage(&PROGRAM);
        if (option == 'v') {
            asked.tricks = 1;
            continue;
        }
        if (asked.form && asked.form != option) return print_usage(&PROGRAM);
        asked.form = option;
    }
    int files = count - options.next;
    if (asked.form == 'w' && (asked.tricks || files > 1)) return print_usage(&PROGRAM);
    return run(&asked, files, words + options.next);
}
