/* ceos: looks at whole products on disk. It maps a file and calls the boundary of seobangyu.h, nothing
 * more: what is right or wrong about a file is the library's to say. `ceos --help` says how it is used;
 * `make ceos` builds it to target/host/ceos.
 *
 * This file finds the command that is asked for in the table (commands.def) and makes the help of it. Each
 * topic has a file of its own; walks.c is what they share of the walk, held.c has the files that are read, put.c
 * those that are written, row.c writes the rows, say.c has the words, and marks.c shows the field of a refusal 6. */
#include "command.h"
#include "held.h"
#include "say.h"

#include <stdio.h>
#include <string.h>

/* The tables --------------------------------------------------------------------------------------- */

enum { ANY = 1 << 20 }; /* any number of words */

static const struct command {
  int (*run)(const struct asked *);
  const char *name, *words;
  int least, most; /* words behind the name */
  unsigned options;
  const char *help, *rows;
} COMMANDS[] = {
#define COMMAND(name, ...) {run_##name, __VA_ARGS__},
#include "commands.def"
#undef COMMAND
};

static const struct option {
  const char *name;
  unsigned option;
  const char *help;
} OPTIONS[] = {
    {"--open", OPEN, "the files are still arriving: what is missing is waited for, and nothing is complete"},
};

enum { COMMAND_COUNT = sizeof COMMANDS / sizeof *COMMANDS, OPTION_COUNT = sizeof OPTIONS / sizeof *OPTIONS };

static const char *command_name(size_t i) { return COMMANDS[i].name; }
static const char *option_name(size_t i) { return i < OPTION_COUNT ? OPTIONS[i].name : "--help"; }

struct names {
  char text[512];
};

/* So many names in a sentence, with `last` before the last one. */
static struct names names(const char *(*name)(size_t), size_t count, const char *last) {
  struct names all = {""};
  size_t length = 0;
  for (size_t i = 0; i < count && length < sizeof all.text; i++) {
    const char *between = i == 0 ? "" : i + 1 < count ? ", " : last;
    length += (size_t)snprintf(all.text + length, sizeof all.text - length, "%s%s", between, name(i));
  }
  return all;
}

/* Help --------------------------------------------------------------------------------------------- */

static const char ABOUT[] =
    "NAME\n"
    "  ceos - looks at the files of a CEOS SAR product (PALSAR, images of level 1.5 and complex ones of\n"
    "         level 1.1; of JERS-1, by its own tables, no leader, image or trailer is accepted, only a\n"
    "         volume directory can be)\n"
    "\n";

static const char ANSWERS[] =
    "OUTPUT\n"
    "  Rows on standard output; the last one is the answer. Messages are on standard error.\n"
    "    COMPLETE 3 RECORDS 1116 BYTES  the file is whole and meets the rules\n"
    "    REFUSED 10 RECORD 3 AT 930     the first fault: its number, the record (from 1), the place (from\n"
    "                                   0); docs/REFUSALS.md says what each number means; of a 6 the\n"
    "                                   field is shown as a message, with a mark under its bad byte\n"
    "    WAIT 9 BYTES RECORD 3 AT 918   so many bytes are missing to the next part of that record, which\n"
    "                                   starts there; what has come so far is good\n"
    "    AGREES 4 FILES                 every file is whole, and the directory tells their record counts\n"
    "    SAMPLE 0 LINE 3 COUNT 513      the sample, or what else was asked of it\n"
    "    CARD 2 LINES 3 LEADERS 73 BYTES\n"
    "                                   so many lines and records of the leader are on the card\n";

static const char STATUS[] =
    "\n"
    "EXIT STATUS\n"
    "  0 accepted (a shown line too)  1 refused  2 wrong use, or an error of the system  3 wait\n"
    "  A file that changes while it is read gives 2, and no answer; with --open it may grow.\n";

static void say_synopsis(void) {
  size_t widest = 0;
  for (size_t i = 0; i < COMMAND_COUNT; i++) {
    size_t width = strlen(COMMANDS[i].name) + 1 + strlen(COMMANDS[i].words);
    if (width > widest) widest = width;
  }
  printf("SYNOPSIS\n");
  for (size_t i = 0; i < COMMAND_COUNT; i++) {
    int room = (int)(widest - strlen(COMMANDS[i].name) - 1);
    printf("  ceos %s %-*s %s\n", COMMANDS[i].name, room, COMMANDS[i].words, COMMANDS[i].help);
  }
  printf("  ceos --help\n\n  KIND is volume, leader, image or trailer, or its number, 1 to 4.\n\n");
}

static void say_options(void) {
  printf("OPTIONS\n");
  for (size_t i = 0; i < OPTION_COUNT; i++) printf("  %-6s  %s\n", OPTIONS[i].name, OPTIONS[i].help);
  printf("  %-6s  %s\n\n", "--", "what follows is no option");
}

/* What the command's rows say; its further lines are set in. */
static void say_rows(const struct command *command) {
  if (command->rows[0] == '\0') return;
  printf("  %s: ", command->name);
  for (const char *at = command->rows; *at != '\0'; at++) {
    (void)putchar(*at);
    if (*at == '\n') printf("    ");
  }
  printf("\n");
}

static void say_help(void) {
  (void)fputs(ABOUT, stdout);
  say_synopsis();
  say_options();
  (void)fputs(ANSWERS, stdout);
  for (size_t i = 0; i < COMMAND_COUNT; i++) say_rows(&COMMANDS[i]);
  (void)fputs(STATUS, stdout);
}

/* The command -------------------------------------------------------------------------------------- */

/* How many of the words asked are the command's name; 0 where they are not. */
static int named(const struct command *command, const struct asked *asked) {
  const char *name = command->name;
  for (int i = 0; i < asked->count; i++) {
    size_t length = strcspn(name, " ");
    if (strlen(asked->words[i]) != length || strncmp(asked->words[i], name, length) != 0) return 0;
    if (name[length] == '\0') return i + 1;
    name += length + 1;
  }
  return 0;
}

static int obey_command(const struct command *command, const struct asked *asked) {
  for (size_t i = 0; i < OPTION_COUNT; i++)
    if ((asked->options & ~command->options & OPTIONS[i].option) != 0)
      usage("%s does not take %s", command->name, OPTIONS[i].name);
  if (asked->count < command->least || asked->count > command->most)
    usage("the use is: ceos %s %s", command->name, command->words);
  return command->run(asked);
}

static int run(struct asked *asked) {
  if (asked->count == 0) usage("name a command: %s", names(command_name, COMMAND_COUNT, " or ").text);
  for (size_t i = 0; i < COMMAND_COUNT; i++) {
    int taken = named(&COMMANDS[i], asked);
    if (taken == 0) continue;
    asked->words += taken;
    asked->count -= taken;
    return obey_command(&COMMANDS[i], asked);
  }
  usage("there is no such command; they are %s", names(command_name, COMMAND_COUNT, " and ").text);
}

static unsigned option_of(const char *word) {
  for (size_t i = 0; i < OPTION_COUNT; i++)
    if (strcmp(word, OPTIONS[i].name) == 0) return OPTIONS[i].option;
  usage("there is no such option; they are %s", names(option_name, OPTION_COUNT + 1, " and ").text);
}

/* Takes the options out of the words, wherever they stand. True if help is asked for. */
static bool take_options(struct asked *asked, int words, char **word) {
  bool options = true;
  for (int i = 0; i < words; i++) {
    if (!options || word[i][0] != '-')
      asked->words[asked->count++] = word[i];
    else if (strcmp(word[i], "--help") == 0 || strcmp(word[i], "-h") == 0)
      return true;
    else if (strcmp(word[i], "--") == 0)
      options = false;
    else
      asked->options |= option_of(word[i]);
  }
  return false;
}

static int obey(int words, char **word) {
  struct asked asked = {.words = word}; /* they move to the front */
  int status = ACCEPTED;
  if (take_options(&asked, words, word))
    say_help();
  else
    status = run(&asked);
  see_written();
  return status;
}

int main(int argc, char **argv) { return while_held(obey, argc > 0 ? argc - 1 : 0, argc > 0 ? argv + 1 : argv); }
