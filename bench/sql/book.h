/* A book in SQLite, as a host in C has it that is written with care: statements are prepared once, each
 * question is asked once, nothing is asked that nobody reads, the book's own row is kept in memory, and
 * the rows that it leaves are those of acqd. Of events it takes sales, and answers that approve them. */
#include <sqlite3.h>
#include <stdio.h>
#include <stdlib.h>
#include <string.h>

enum { FIRST_DAY = 8887, LIMIT = 999999, PENDING = 1, APPROVED = 3, DEBIT = 2, PREFIX_DIGITS = 8 };

enum kind { ADD_RANGE, ENROL, TERMINAL, SALE, ANSWER };

struct event {
    enum kind kind;
    char merchant[16], terminal[9], trace[7], stamp[11], card[20], currency[4], code[7], issuer[12];
    long long amount, reference, low, high, hold_days;
};

static sqlite3 *db;

static void fail(const char *what) {
    fprintf(stderr, "plain: %s: %s\n", what, db ? sqlite3_errmsg(db) : "");
    exit(1);
}

/* ---- statements ---- */

enum statement {
    BOOK, MERCHANT, HAS_TERMINAL, GREATEST, USED, POSTED, RANGE, OVERLAPPING, REQUEST, REFERRED,
    ADD_A_RANGE, ADD_A_MERCHANT, ADD_A_TERMINAL, ADD_A_REQUEST, ANSWER_A_REQUEST, ADD_A_POSTING, RAISE,
    BEGIN, COMMIT, STATEMENTS
};

#define KEY "merchant = ?1 AND terminal = ?2 AND kind = ?3 AND trace = ?4 AND stamp = ?5"

static const char *const texts[STATEMENTS] = {
    [BOOK] = "SELECT max_a_day, day FROM book",
    [MERCHANT] = "SELECT currency, first FROM merchants WHERE merchant = ?1",
    [HAS_TERMINAL] = "SELECT 1 FROM terminals WHERE merchant = ?1 AND terminal = ?2",
    [GREATEST] = "SELECT reference FROM requests WHERE merchant = ?1 ORDER BY reference DESC LIMIT 1",
    [USED] = "SELECT used FROM running WHERE merchant = ?1 AND day = ?2",
    [POSTED] = "SELECT credits + credit_reversals + debits + debit_reversals FROM running "
               "WHERE merchant = ?1 AND day = ?2",
    [RANGE] = "SELECT high, hold_days FROM ranges WHERE low <= ?1 ORDER BY low DESC LIMIT 1",
    [OVERLAPPING] = "SELECT 1 FROM ranges WHERE ?1 <= high AND low <= ?2 LIMIT 1",
    [REQUEST] = "SELECT essence, status, reply FROM requests WHERE " KEY,
    [REFERRED] = "SELECT terminal, kind, trace, stamp, day, status, amount, card, reply FROM requests "
                 "WHERE merchant = ?1 AND reference = ?2",
    [ADD_A_RANGE] = "INSERT INTO ranges VALUES (?1, ?2, ?3, ?4)",
    [ADD_A_MERCHANT] = "INSERT INTO merchants VALUES (?1, ?2, ?3)",
    [ADD_A_TERMINAL] = "INSERT INTO terminals VALUES (?1, ?2)",
    [ADD_A_REQUEST] = "INSERT INTO requests VALUES "
                      "(?1, ?2, ?3, ?4, ?5, ?6, ?7, ?8, ?9, ?10, ?11, ?12, ?13, ?14, ?15, ?16, ?17, ?18)",
    [ANSWER_A_REQUEST] = "UPDATE requests SET status = ?6, until = ?7, reply = ?8 WHERE " KEY,
    [ADD_A_POSTING] = "INSERT INTO postings VALUES (?1, ?2, ?3, ?4, ?5, ?6, ?7, ?8, ?9)",
    [RAISE] = "INSERT INTO running VALUES (?1, ?2, ?3, ?4, ?5, ?6, ?7, ?8, ?9, ?10, ?11) "
              "ON CONFLICT (merchant, day) DO UPDATE SET used = used + ?3, credits = credits + ?4, "
              "credit_reversals = credit_reversals + ?5, debits = debits + ?6, "
              "debit_reversals = debit_reversals + ?7, credit_amount = credit_amount + ?8, "
              "credit_reversal_amount = credit_reversal_amount + ?9, debit_amount = debit_amount + ?10, "
              "debit_reversal_amount = debit_reversal_amount + ?11",
    [BEGIN] = "BEGIN",
    [COMMIT] = "COMMIT",
};

static const char schema[] =
    "CREATE TABLE book (version INTEGER NOT NULL, max_a_day INTEGER NOT NULL, day INTEGER NOT NULL) STRICT;"
    "CREATE TABLE merchants (merchant TEXT PRIMARY KEY, currency TEXT NOT NULL, first INTEGER NOT NULL) STRICT;"
    "CREATE TABLE terminals (merchant TEXT, terminal TEXT, PRIMARY KEY (merchant, terminal)) STRICT;"
    "CREATE TABLE ranges (low INTEGER PRIMARY KEY, high INTEGER NOT NULL, issuer TEXT NOT NULL, "
    "hold_days INTEGER NOT NULL) STRICT;"
    "CREATE TABLE requests (merchant TEXT NOT NULL, terminal TEXT NOT NULL, kind TEXT NOT NULL, "
    "trace TEXT NOT NULL, stamp TEXT NOT NULL, essence TEXT NOT NULL, day INTEGER NOT NULL, "
    "status INTEGER NOT NULL, admitted INTEGER NOT NULL, reference INTEGER, follows INTEGER, "
    "amount INTEGER NOT NULL, leg INTEGER NOT NULL, card TEXT, acquirer TEXT, hold_days INTEGER, "
    "until INTEGER, reply TEXT NOT NULL) STRICT;"
    "CREATE INDEX requests_by_key ON requests (merchant, terminal, kind, trace, stamp);"
    "CREATE INDEX requests_by_reference ON requests (merchant, reference);"
    "CREATE TABLE postings (merchant TEXT NOT NULL, day INTEGER NOT NULL, number INTEGER NOT NULL, "
    "leg INTEGER NOT NULL, amount INTEGER NOT NULL, reference INTEGER NOT NULL, card TEXT NOT NULL, "
    "terminal TEXT NOT NULL, trace TEXT NOT NULL) STRICT;"
    "CREATE INDEX postings_by_number ON postings (day, merchant, number);"
    "CREATE TABLE reconciliations (merchant TEXT NOT NULL, day INTEGER NOT NULL, "
    "number INTEGER NOT NULL, in_balance INTEGER NOT NULL) STRICT;"
    "CREATE INDEX reconciliations_by_number ON reconciliations (day, merchant, number);"
    "CREATE TABLE running (merchant TEXT, day INTEGER, used INTEGER NOT NULL, credits INTEGER NOT NULL, "
    "credit_reversals INTEGER NOT NULL, debits INTEGER NOT NULL, debit_reversals INTEGER NOT NULL, "
    "credit_amount INTEGER NOT NULL, credit_reversal_amount INTEGER NOT NULL, "
    "debit_amount INTEGER NOT NULL, debit_reversal_amount INTEGER NOT NULL, "
    "PRIMARY KEY (merchant, day)) STRICT;";

static sqlite3_stmt *prepared[STATEMENTS];

static void copy(char *into, const char *from, size_t length) {
    memcpy(into, from, length);
    into[length] = 0;
}

static void text(enum statement which, int at, const char *value) {
    sqlite3_bind_text(prepared[which], at, value, -1, SQLITE_STATIC);
}

static void number(enum statement which, int at, long long value) {
    sqlite3_bind_int64(prepared[which], at, value);
}

static void null(enum statement which, int at) {
    sqlite3_bind_null(prepared[which], at);
}

/* Makes a step, and says whether it gave a row. */
static int gives_row(enum statement which) {
    int code = sqlite3_step(prepared[which]);
    if (code != SQLITE_ROW && code != SQLITE_DONE) fail(texts[which]);
    return code == SQLITE_ROW;
}

/* Ends a query after its only row. */
static void end(enum statement which) {
    if (gives_row(which)) fail("a second row");
    sqlite3_reset(prepared[which]);
}

static void run(enum statement which) {
    if (gives_row(which)) fail(texts[which]);
    sqlite3_reset(prepared[which]);
}

static long long column(enum statement which, int at) {
    return sqlite3_column_int64(prepared[which], at);
}

static void column_text(enum statement which, int at, char *into, size_t size) {
    const unsigned char *value = sqlite3_column_text(prepared[which], at);
    snprintf(into, size, "%s", value ? (const char *)value : "");
}

/* ---- look-ups ---- */

static long long today, limit;

/* The book's own row, which is asked for once. */
static void recall_book(void) {
    if (!gives_row(BOOK)) fail("no row of the book");
    limit = column(BOOK, 0);
    today = column(BOOK, 1);
    end(BOOK);
}

/* The only number of a row, or another where there is no row. */
static long long number_or(enum statement which, long long other) {
    if (!gives_row(which)) {
        sqlite3_reset(prepared[which]);
        return other;
    }
    long long value = column(which, 0);
    end(which);
    return value;
}

/* The merchant's first reference, or 0 where it isn't enrolled, and its currency. */
static long long look_up_merchant(const char *merchant, char currency[4]) {
    text(MERCHANT, 1, merchant);
    if (!gives_row(MERCHANT)) {
        sqlite3_reset(prepared[MERCHANT]);
        return 0;
    }
    column_text(MERCHANT, 0, currency, 4);
    long long first = column(MERCHANT, 1);
    end(MERCHANT);
    return first;
}

/* The next reference of a merchant with this first one. */
static long long next_reference(const char *merchant, long long first) {
    text(GREATEST, 1, merchant);
    return number_or(GREATEST, first - 1) + 1;
}

/* How many messages of the merchant count today, or how many postings it has of a day. */
static long long look_up_running(enum statement which, const char *merchant, long long day) {
    text(which, 1, merchant);
    number(which, 2, day);
    return number_or(which, 0);
}

static int look_up_terminal(const char *merchant, const char *terminal) {
    text(HAS_TERMINAL, 1, merchant);
    text(HAS_TERMINAL, 2, terminal);
    return number_or(HAS_TERMINAL, 0) == 1;
}

/* The days of a hold of the prefix's range, or -1 where there is none. */
static long long look_up_range(long long prefix) {
    number(RANGE, 1, prefix);
    if (!gives_row(RANGE)) {
        sqlite3_reset(prepared[RANGE]);
        return -1;
    }
    long long hold_days = prefix <= column(RANGE, 0) ? column(RANGE, 1) : -1;
    end(RANGE);
    return hold_days;
}

/* Whether a request with the key is recorded. */
static int is_recorded(const struct event *event) {
    text(REQUEST, 1, event->merchant);
    text(REQUEST, 2, event->terminal);
    text(REQUEST, 3, "020");
    text(REQUEST, 4, event->trace);
    text(REQUEST, 5, event->stamp);
    int found = gives_row(REQUEST);
    if (found) end(REQUEST);
    else sqlite3_reset(prepared[REQUEST]);
    return found;
}

struct request {
    char terminal[9], kind[4], trace[7], stamp[11], card[20], reply[400];
    long long day, status, amount;
};

/* Whether there is the merchant's request with this reference. */
static int look_up_referred(const char *merchant, long long reference, struct request *request) {
    text(REFERRED, 1, merchant);
    number(REFERRED, 2, reference);
    if (!gives_row(REFERRED)) {
        sqlite3_reset(prepared[REFERRED]);
        return 0;
    }
    column_text(REFERRED, 0, request->terminal, sizeof request->terminal);
    column_text(REFERRED, 1, request->kind, sizeof request->kind);
    column_text(REFERRED, 2, request->trace, sizeof request->trace);
    column_text(REFERRED, 3, request->stamp, sizeof request->stamp);
    request->day = column(REFERRED, 4);
    request->status = column(REFERRED, 5);
    request->amount = column(REFERRED, 6);
    column_text(REFERRED, 7, request->card, sizeof request->card);
    column_text(REFERRED, 8, request->reply, sizeof request->reply);
    end(REFERRED);
    return 1;
}

/* ---- events ---- */

/* Adds to the running totals, with one posting of a debit or none. */
static void raise_running(const char *merchant, long long day, long long used, long long debits,
                          long long amount) {
    text(RAISE, 1, merchant);
    number(RAISE, 2, day);
    number(RAISE, 3, used);
    for (int leg = 0; leg < 4; leg++) {
        number(RAISE, 4 + leg, leg == DEBIT ? debits : 0);
        number(RAISE, 8 + leg, leg == DEBIT ? amount : 0);
    }
    run(RAISE);
}

/* Takes a sale, and returns its reference. */
static long long take_sale(const struct event *event) {
    char essence[160], reply[400], prefix[PREFIX_DIGITS + 1], currency[4];
    long long first = look_up_merchant(event->merchant, currency);
    if (!first || strcmp(currency, event->currency)) fail("no merchant of this currency");
    if (!look_up_terminal(event->merchant, event->terminal)) fail("no terminal");
    if (is_recorded(event)) fail("a sale twice");
    copy(prefix, event->card, PREFIX_DIGITS);
    long long hold_days = look_up_range(atoll(prefix));
    if (hold_days < 0) fail("no range");
    if (look_up_running(USED, event->merchant, today) >= limit) fail("over the limit");
    long long reference = next_reference(event->merchant, first);
    snprintf(essence, sizeof essence, "0200700000000000800016%s000000%012lld%s", event->card,
             event->amount, event->currency);
    snprintf(reply, sizeof reply, "02107222000008C0800016%s000000%012lld%s%s0501%012lld%s%s%s",
             event->card, event->amount, event->stamp, event->trace, reference, event->terminal,
             event->merchant, event->currency);
    text(ADD_A_REQUEST, 1, event->merchant);
    text(ADD_A_REQUEST, 2, event->terminal);
    text(ADD_A_REQUEST, 3, "020");
    text(ADD_A_REQUEST, 4, event->trace);
    text(ADD_A_REQUEST, 5, event->stamp);
    text(ADD_A_REQUEST, 6, essence);
    number(ADD_A_REQUEST, 7, today);
    number(ADD_A_REQUEST, 8, PENDING);
    number(ADD_A_REQUEST, 9, 1);
    number(ADD_A_REQUEST, 10, reference);
    null(ADD_A_REQUEST, 11);
    number(ADD_A_REQUEST, 12, event->amount);
    number(ADD_A_REQUEST, 13, DEBIT);
    text(ADD_A_REQUEST, 14, event->card);
    null(ADD_A_REQUEST, 15);
    number(ADD_A_REQUEST, 16, hold_days);
    null(ADD_A_REQUEST, 17);
    text(ADD_A_REQUEST, 18, reply);
    run(ADD_A_REQUEST);
    raise_running(event->merchant, today, 1, 0, 0);
    return reference;
}

/* Takes an issuer's answer, and writes the reply. */
static void take_answer(const struct event *event, char reply[400]) {
    char currency[4];
    struct request request;
    if (!look_up_merchant(event->merchant, currency)) fail("no merchant");
    if (!look_up_referred(event->merchant, event->reference, &request)) fail("no sale");
    if (request.status != PENDING) fail("a sale that isn't pending");
    /* Elements 2 to 37 stay, 38 and 39 come in before 41. */
    char *fixed = request.reply + 20, *rest = request.reply + strlen(request.reply) - 26;
    snprintf(reply, 400, "0210722200000EC08000%.*s%s00%s", (int)(rest - fixed), fixed,
             event->code, rest);
    long long posted = look_up_running(POSTED, event->merchant, request.day);
    text(ANSWER_A_REQUEST, 1, event->merchant);
    text(ANSWER_A_REQUEST, 2, request.terminal);
    text(ANSWER_A_REQUEST, 3, request.kind);
    text(ANSWER_A_REQUEST, 4, request.trace);
    text(ANSWER_A_REQUEST, 5, request.stamp);
    number(ANSWER_A_REQUEST, 6, APPROVED);
    null(ANSWER_A_REQUEST, 7);
    text(ANSWER_A_REQUEST, 8, reply);
    run(ANSWER_A_REQUEST);
    text(ADD_A_POSTING, 1, event->merchant);
    number(ADD_A_POSTING, 2, request.day);
    number(ADD_A_POSTING, 3, posted + 1);
    number(ADD_A_POSTING, 4, DEBIT);
    number(ADD_A_POSTING, 5, request.amount);
    number(ADD_A_POSTING, 6, event->reference);
    text(ADD_A_POSTING, 7, request.card);
    text(ADD_A_POSTING, 8, request.terminal);
    text(ADD_A_POSTING, 9, request.trace);
    run(ADD_A_POSTING);
    raise_running(event->merchant, request.day, 0, 1, request.amount);
}

/* ---- messages ---- */

enum { SALE_BYTES = 98 };

/* The sale of a message: elements 2, 3, 4, 7, 11, 41, 42 and 49. */
static int read_sale(struct event *event, const char message[SALE_BYTES]) {
    char amount[13];
    if (memcmp(message, "02007220000000C0800016", 22) || memcmp(message + 38, "000000", 6)) return 0;
    memset(event, 0, sizeof *event);
    copy(event->card, message + 22, 16);
    copy(amount, message + 44, 12);
    event->amount = atoll(amount);
    copy(event->stamp, message + 56, 10);
    copy(event->trace, message + 66, 6);
    copy(event->terminal, message + 72, 8);
    copy(event->merchant, message + 80, 15);
    copy(event->currency, message + 95, 3);
    event->kind = SALE;
    return 1;
}

/* ---- books ---- */

static void make_book(void) {
    char row[100];
    snprintf(row, sizeof row, "INSERT INTO book VALUES (2, %d, %d)", LIMIT, FIRST_DAY);
    if (sqlite3_exec(db, "BEGIN", NULL, NULL, NULL) || sqlite3_exec(db, schema, NULL, NULL, NULL)
        || sqlite3_exec(db, row, NULL, NULL, NULL) || sqlite3_exec(db, "COMMIT", NULL, NULL, NULL))
        fail("a new book");
}

static int has_tables(void) {
    sqlite3_stmt *query;
    if (sqlite3_prepare_v2(db, "SELECT 1 FROM sqlite_schema", -1, &query, NULL)) fail("the schema");
    int has = sqlite3_step(query) == SQLITE_ROW;
    sqlite3_finalize(query);
    return has;
}

static void open_book(const char *path) {
    if (sqlite3_open(path, &db)) fail(path);
    /* As acqd has its files: a log before the file, and each commit on the disk before it is told. */
    if (sqlite3_exec(db, "PRAGMA journal_mode = WAL; PRAGMA synchronous = FULL", NULL, NULL, NULL))
        fail("the log");
    if (!has_tables()) make_book();
    for (int which = 0; which < STATEMENTS; which++)
        if (sqlite3_prepare_v3(db, texts[which], -1, SQLITE_PREPARE_PERSISTENT, &prepared[which], NULL))
            fail(texts[which]);
    recall_book();
}

static void close_book(void) {
    for (int which = 0; which < STATEMENTS; which++) sqlite3_finalize(prepared[which]);
    if (sqlite3_close(db)) fail("close");
    db = NULL;
}
