/* Plays the table of cases that all languages share, ../cases, whose README describes the format: a host of one thread that makes calls of one
 * key, phase by phase. usage: cases FILE.. */
#include "check.h"

enum { WORDS = 16, LINES = 4000, TEXT = 256 };
/* What can't be played: what is in a line of it, and why. */
static struct { const char *text, *reason; unsigned cases; } left_out[] = {
    {"begins", "the host has one thread", 0}, {"ttl", "the core has no clock", 0}, {"tti", "the core has no clock", 0},
    {"close:", "a closed desk answers codes", 0}, {"_many", "rounds are a host's", 0}, {"remove_all", "rounds are a host's", 0},
    {"clear:", "rounds are a host's", 0}};
static const size_t LEFT_OUT = sizeof left_out / sizeof *left_out;
/* By their numbers (jc_op, jc_reply). */
static const char *const VERBS[] = {"get", "contains_key", "put", "get_and_put", "put_if_absent", "remove", "remove_if", "get_and_remove", "replace",
                                    "replace_if", "get_and_replace", "", "", "", "invoke"};
static const char *const REPLIES[] = {"ok", "false", "true", "none", "", "loader failed", "writer failed", "processor failed"};
/* A key is a letter: the store has its value at this place, or nothing. */
static char store[26][TEXT], lines[LINES][TEXT], asked[TEXT], found[TEXT], *words[WORDS];
/* What the loader and the writer answer next. */
static const char *load_next = "", *write_next = "";
static size_t words_len;
static jc_shape shape;
static jc_desk desk;

/* Appends KEY or KEY=VALUE. */
static void append(char *text, const char *between, const char *key, const char *value) {
    const char *parts[] = {*text ? between : "", key, value ? "=" : "", value ? value : ""};
    for (size_t i = 0; i < 4; i++) {
        CHECK(strlen(text) + strlen(parts[i]) < TEXT);
        strcat(text, parts[i]);
    }
}

/* What a text has after a word that begins so; NULL: there is none. */
static const char *find(const char *text, const char *word) {
    for (const char *at = strstr(text, word); at; at = strstr(at + 1, word)) {
        if (at == text || at[-1] == ' ') {
            return at + strlen(word);
        }
    }
    return NULL;
}

static jc_value value_of(const char *text) {
    jc_value value = {.len = (uint32_t)strlen(text)};
    memcpy(value.bytes, text, value.len);
    return value;
}

/* Asks the loader for a key: jc_answer, and the value that it has found. */
static uint32_t ask_loader(const char *key, char *loaded) {
    const char sought[] = {key[0], '=', 0}, *given = find(load_next, sought);
    bool has_failed = strcmp(load_next, "fails") == 0;
    snprintf(loaded, TEXT, "%s", given ? given : *load_next ? "" : store[key[0] - 'a']);
    append(asked, "\n", "load", NULL);
    append(asked, " ", key, NULL);
    load_next = "";
    return has_failed ? JC_ANSWER_FAILED : *loaded ? JC_ANSWER_FOUND : JC_ANSWER_NOTHING;
}

/* Has the writer write a value, or, without one, delete the key: jc_answer. */
static uint32_t ask_writer(const char *key, const char *value) {
    bool has_failed = find(write_next, "fails") != NULL;
    if (!*write_next || find(write_next, "though")) {
        strcpy(store[key[0] - 'a'], value ? value : "");
    }
    append(asked, "\n", value ? "write" : "delete", NULL);
    append(asked, " ", key, value);
    write_next = "";
    return has_failed ? JC_ANSWER_FAILED : JC_ANSWER_WRITTEN;
}

/* Runs a processor, whose acts are words, and asks the writer for what it has done. */
static jc_processed process(const char *key, const jc_out *out) {
    char answers[TEXT] = "", loaded[TEXT], cached[JC_VALUE_MAX + 1];
    const char *value = NULL;
    jc_processed done = {.load = JC_ANSWER_NOT_ASKED};
    if (out->reply == JC_REPLY_VALUE) {
        snprintf(cached, sizeof cached, "%.*s", (int)out->value.len, (const char *)out->value.bytes);
        value = cached;
    }
    for (size_t i = 3; i < words_len && done.effect != JC_EFFECT_FAILED; i++) {
        const char *act = words[i], *set = find(act, "set=");
        if (strcmp(act, "get") == 0 && !value && out->code == 1 && done.load == JC_ANSWER_NOT_ASKED && done.effect == JC_EFFECT_KEEP) {
            done.load = ask_loader(key, loaded);
            value = done.load == JC_ANSWER_FOUND ? loaded : NULL;
            done.loaded = value_of(loaded);
        }
        if (strcmp(act, "get") == 0 || strcmp(act, "exists") == 0) {
            append(answers, " ", *act == 'g' ? (value ? value : "none") : value ? "true" : "false", NULL);
        } else if (strcmp(act, "fail") == 0) {
            done.effect = JC_EFFECT_FAILED;
        } else if (done.load != JC_ANSWER_FAILED) {
            value = set;
            done.effect = set ? JC_EFFECT_SET : JC_EFFECT_REMOVE;
        }
    }
    done.set = value_of(value ? value : "");
    done.has_outcome = true;
    done.outcome = value_of(*answers ? answers : "ok");
    if (shape.write_through && (done.effect == JC_EFFECT_SET || done.effect == JC_EFFECT_REMOVE) && done.load != JC_ANSWER_FAILED) {
        done.write = ask_writer(key, value);
    }
    return done;
}

/* Makes the call of a line, of which the reply is in found. */
static void call(void) {
    uint32_t op = 0;
    while (strcmp(VERBS[op], words[0]) != 0) {
        CHECK(++op < sizeof VERBS / sizeof *VERBS);
    }
    const char *key = words[1], *value = op != JC_OP_INVOKE && words_len > 2 ? words[2] : "", *other = op == JC_OP_REPLACE_IF ? words[3] : "";
    jc_out out = {0};
    CHECK(jc_begin(&desk, 0, op, BYTES(key), BYTES(value), BYTES(other), &out) == JC_OK);
    uint64_t ticket = out.number;
    if (out.next == JC_ASK_LOAD) {
        char loaded[TEXT];
        uint32_t answer = ask_loader(key, loaded);
        CHECK(jc_commit_load(&desk, ticket, answer, 0, BYTES(loaded), &out) == JC_OK);
    } else if (out.next == JC_ASK_WRITE || out.next == JC_ASK_DELETE) {
        uint32_t answer = ask_writer(key, out.next == JC_ASK_WRITE ? words[words_len - 1] : NULL);
        CHECK(jc_commit_write(&desk, ticket, answer, 0, &out) == JC_OK);
    } else if (out.next == JC_ASK_PROCESS) {
        jc_processed done = process(key, &out);
        CHECK(jc_commit_process(&desk, ticket, &done, &out) == JC_OK);
    }
    CHECK(out.next == JC_NEXT_DONE);
    if (out.reply == JC_REPLY_VALUE) {
        snprintf(found, TEXT, "%.*s", (int)out.value.len, (const char *)out.value.bytes);
    } else {
        append(found, "", REPLIES[out.reply], NULL);
    }
}

/* What has been counted. */
static void count(void) {
    static const char *const NAMES[] = {"hits", "misses", "puts", "removals", "evictions"};
    jc_statistics it;
    CHECK(jc_statistics_of(&desk, &it) == JC_OK);
    const uint64_t counts[] = {it.hits, it.misses, it.puts, it.removals, it.evictions};
    for (size_t i = 0; i < 5; i++) {
        char text[TEXT];
        snprintf(text, TEXT, "%s %u", NAMES[i], (unsigned)counts[i]);
        append(found, counts[i] ? " " : "", counts[i] ? text : "", NULL);
    }
}

/* The entries of the store, or of the cache. */
static void look(bool is_store) {
    for (char key[2] = "a"; *key <= 'z'; ++*key) {
        char text[TEXT] = "";
        jc_value value = {0};
        bool is_cached = jc_peek(&desk, BYTES(key), &value) == JC_OK;
        snprintf(text, TEXT, "%.*s", (int)value.len, (const char *)value.bytes);
        if (is_store ? *store[*key - 'a'] : is_cached) {
            append(found, " ", key, is_store ? store[*key - 'a'] : text);
        }
    }
}

/* Plays a line; what it shows or replies is in found. Whether it shows what there is. */
static bool step(const char *line) {
    const char *verb = words[0], *rest = strchr(line, ' ');
    bool is_store = strcmp(verb, "store") == 0, is_cache = strcmp(verb, "cache") == 0;
    bool is_count = strcmp(verb, "counted") == 0, is_look = strcmp(verb, "stored") == 0 || strcmp(verb, "cached") == 0;
    if (strcmp(verb, "load") == 0) {
        load_next = rest + 1;
    } else if (strcmp(verb, "write") == 0) {
        write_next = rest + 1;
    } else if (is_count) {
        count();
    } else if (is_look) {
        look(*verb == 's');
    } else if (!is_store && !is_cache && strcmp(verb, "with") != 0) {
        call();
    }
    for (size_t i = 1; i < words_len && (is_store || is_cache); i++) {
        char key[] = {words[i][0], 0};
        jc_out out = {0};
        if (is_store) {
            strcpy(store[*key - 'a'], words[i] + 2);
        } else {
            CHECK(jc_begin(&desk, 0, JC_OP_LOAD, BYTES(key), NONE, NONE, &out) == JC_OK && out.next == JC_ASK_LOAD);
            CHECK(jc_commit_load(&desk, out.number, JC_ANSWER_FOUND, 0, BYTES(words[i] + 2), &out) == JC_OK);
        }
    }
    return is_count || is_look;
}

/* Plays the lines of a case up to the first difference: LEFT_OUT, or the place of what keeps it from being played. */
static size_t play(const char *path, size_t from, size_t to) {
    for (size_t i = from * LEFT_OUT; i < to * LEFT_OUT; i++) {
        if (strstr(lines[i / LEFT_OUT], left_out[i % LEFT_OUT].text)) {
            return i % LEFT_OUT;
        }
    }
    const char *options = strncmp(lines[from], "with ", 5) == 0 ? lines[from] : "", *capacity = find(options, "capacity ");
    memset(store, 0, sizeof store);
    desk = (jc_desk){0};
    shape = (jc_shape){.stripes = 1, .capacity = capacity ? (size_t)atoi(capacity) : 100, .history = 260, .read_through = find(options, "read"),
                       .write_through = find(options, "write"), .out_size = sizeof(jc_out)};
    CHECK(jc_open(&desk, &shape, 0, (jc_entry[1]){0}, 0) == JC_OK);
    for (size_t i = from, next; i < to; i = next) {
        char line[TEXT], asks[TEXT] = "", *wanted = strchr(lines[i], ':');
        strcpy(line, lines[i]);
        line[strcspn(line, ":")] = 0;
        for (next = i + 1; next < to && strncmp(lines[next], "asks ", 5) == 0; next++) {
            append(asks, "\n", lines[next] + 5, NULL);
        }
        words_len = 0;
        for (char *word = strtok(line, " "); word && words_len < WORDS; word = strtok(NULL, " ")) {
            words[words_len++] = word;
        }
        *found = *asked = 0;
        bool is_look = words_len && *words[0] != '#' && step(lines[i]);
        wanted = is_look ? strchr(lines[i], ' ') + 1 : wanted && *words[0] != '#' ? wanted + 2 : "";
        append(found, "", is_look && !*found ? "nothing" : "", NULL);
        if (strcmp(found, wanted) != 0 || strcmp(asked, asks) != 0) {
            fprintf(stderr, "%s:%zu: %s: wanted %s (%s), found %s (%s)\n", path, i + 1, lines[i], wanted, asks, found, asked);
            exit(1);
        }
    }
    CHECK(!*load_next && !*write_next && jc_close(&desk) == JC_OK);
    return LEFT_OUT;
}

/* Plays what it can of a file, and says how many cases that were. */
static unsigned play_file(const char *path) {
    unsigned played = 0;
    size_t len = 0, from = 0;
    FILE *file = fopen(path, "r");
    CHECK(file);
    for (char line[TEXT]; fgets(line, TEXT, file); len++) {
        CHECK(len < LINES - 1);
        line[strcspn(line, "\n")] = 0;
        strcpy(lines[len], line + strspn(line, " "));
    }
    fclose(file);
    strcpy(lines[len], "case ");
    for (size_t at = 0; at <= len; at++) {
        if (strncmp(lines[at], "case ", 5) == 0) {
            size_t lack = from ? play(path, from, at) : LEFT_OUT;
            played += from && lack == LEFT_OUT;
            left_out[lack % LEFT_OUT].cases += lack < LEFT_OUT;
            from = at + 1;
        }
    }
    return played;
}

int main(int count, char **paths) {
    unsigned played = 0;
    for (int i = 1; i < count; i++) {
        played += play_file(paths[i]);
    }
    printf("%u cases played", played);
    for (size_t i = 0; i < LEFT_OUT; i++) {
        printf(", %u left out: %s (%s)", left_out[i].cases, left_out[i].text, left_out[i].reason);
    }
    printf("\n");
    return played == 0;
}
