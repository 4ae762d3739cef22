/* A state machine: switches over characters and states, which compilers turn into jump tables and into tables of results. */
#include <stdio.h>
#include <string.h>

enum state { SPACE, WORD, NUMBER, QUOTED, ESCAPED, COMMENT, OPERATOR, BROKEN };

static const char *name_of(enum state state)
{
    switch (state) {
    case SPACE: return "space";
    case WORD: return "word";
    case NUMBER: return "number";
    case QUOTED: return "quoted";
    case ESCAPED: return "escaped";
    case COMMENT: return "comment";
    case OPERATOR: return "operator";
    case BROKEN: return "broken";
    }
    return "nothing";
}

static enum state begin(char c)
{
    switch (c) {
    case ' ': case '\n': return SPACE;
    case '0': case '1': case '2': case '3': case '4': case '5': case '6': case '7': case '8': case '9': return NUMBER;
    case '"': return QUOTED;
    case '#': return COMMENT;
    case '+': case '-': case '*': case '/': case '=': return OPERATOR;
    case '$': return BROKEN;
    default: return WORD;
    }
}

static int depth, strings, escapes;

static enum state next(enum state state, char c)
{
    switch (state) {
    case QUOTED:
        if (c == '"') {
            strings++;
            return SPACE;
        }
        return c == '\\' ? ESCAPED : QUOTED;
    case ESCAPED:
        escapes++;
        return QUOTED;
    case COMMENT:
        return c == '\n' ? SPACE : COMMENT;
    case NUMBER:
        return begin(c) == WORD ? BROKEN : begin(c);
    case WORD:
        return begin(c) == NUMBER ? WORD : begin(c);
    case OPERATOR:
        depth += c == '+' ? 1 : 2;
        return begin(c);
    case BROKEN:
        return c == '\n' ? SPACE : BROKEN;
    case SPACE:
        return begin(c);
    }
    return BROKEN;
}

static const char text[] = "total = price * 12 + fee2   # with \"taxes\"\n"
                           "say \"quoted \\\"twice\\\" = $3\" - 7\n"
                           "34x is no number\n"
                           "done $ and more\n";

static const unsigned expected[] = {18, 21, 5, 20, 2, 14, 4, 24};

int main(void)
{
    unsigned counts[BROKEN + 1] = {0};
    enum state state = SPACE;
    for (const char *at = text; *at; at++) {
        state = next(state, *at);
        counts[state]++;
    }
    for (int i = SPACE; i <= BROKEN + 1; i++)
        printf("%s %u\n", name_of(i), i <= BROKEN ? counts[i] : 0);
    printf("%d strings, %d escapes, depth %d\n", strings, escapes, depth);
    int good = memcmp(counts, expected, sizeof counts) == 0 && state == SPACE;
    puts(good ? "scanner: ok" : "scanner: wrong");
    return !good;
}
