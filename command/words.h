/* The words of a subcommand, one after the other: options, their values, and operands. Where a word is wrong it is said
   what is, and the program ends. */
#ifndef WORDS_H
#define WORDS_H

struct subcommand;

struct words {
    const struct subcommand *of; /* whose words they are */
    int left;                    /* how many are left, */
    char **next;                 /* and the first of them */
    const char *word;            /* the word at hand: an operand, or an option with its dashes */
    const char *given;           /* what stood behind the = of an option, or NULL */
    int operands_only;           /* after -- */
};

enum word { WORD_END, WORD_OPTION, WORD_OPERAND };

/* Takes the next word, and says what it is. --help is answered here, and ends the program. */
enum word next_word(struct words *words);

/* Whether the option at hand has this name. */
int is_option(const struct words *words, const char *name);

/* The value of the option at hand: behind its =, or the next word. */
const char *option_value(struct words *words);

/* The value as a number from `least` to `most`. */
long option_number(struct words *words, long least, long most);

/* The value as one of some names, which NULL ends: the name's place among them. */
unsigned option_choice(struct words *words, const char *const *names);

/* For an option that has no value. */
void option_alone(const struct words *words);

/* A number in decimal digits, perhaps after a minus sign. Answers whether the text is one. */
int read_number(const char *text, long *number);

/* The operand at hand, if it is the first: `before` is NULL then. */
const char *only_operand(const struct words *words, const char *before);

/* Says what is wrong with the words and which help to read, and ends the program. The format is print_sentence's. */
void misused(const struct words *words, const char *format, ...) __attribute__((format(printf, 2, 3), noreturn));

/* The same for an option that the subcommand does not have. */
void unknown_option(const struct words *words) __attribute__((noreturn));

#endif
