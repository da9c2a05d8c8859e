/*
 * Calls every function of desk.h with every lent octet at the edge of a page (rooms.h).
 *
 *     edges answers < STREAM    a line for each case, in the form of tests/README.md
 *     edges parts < STREAM      what is shown of each desk case's response
 *     edges places < STREAM     the place of what does not fit in each desk case's response
 *     edges document            document 01's case, source document 000's A.1, document 02's cache and places,
 *                               and odd lengths
 *
 * Each call is made at every edge, with buffers of exact, longer and shorter sizes. What desk.h
 * promises of each call is looked at here; what is answered is written, for others to compare. For a
 * slip the line is what desk_slip returns. Ends with 1 at the first broken promise. The functions on the
 * cache are called in caches.c, desk_misfit in misfits.c.
 */
#include "edges.h"

#include <signal.h>

#include "desk.h"

static unsigned long cases;
const char *called = "";

void hold(int kept, const char *promise)
{
    if (kept)
        return;
    fflush(stdout);
    fprintf(stderr, "edges: case %lu, %s: not so: %s\n", cases, called, promise);
    exit(1);
}

/* A signal's handler may write, and print nothing. */
static void touched(int signal)
{
    static const char what[] = ": touched what it was not lent\n";
    (void)signal;
    if (write(2, "edges: ", 7) < 0 || write(2, called, strlen(called)) < 0 ||
        write(2, what, sizeof what - 1) < 0)
        _exit(2);
    _exit(1);
}

static struct room question_room, response_room, buffer_room, from_room, len_room;

static void print_hex(const uint8_t *octets, size_t len)
{
    for (size_t i = 0; i < len; i++)
        printf("%02x", octets[i]);
    printf("\n");
}

size_t *lend_number(const struct room *room, enum edge edge)
{
    return (size_t *)lend_buffer(room, edge, sizeof(size_t));
}

/* What a function says of a response: a refusal's number or 0, and a place. */
struct shown {
    size_t number, from, len;
};
typedef size_t show_function(const uint8_t *, size_t, size_t *, size_t *);

static size_t ordinal;
static size_t entry_at_ordinal(const uint8_t *response, size_t rlen, size_t *from, size_t *len)
{
    return desk_entry(response, rlen, ordinal, from, len);
}

/* Shows a part of the response in its room, at every edge. */
static struct shown show(const char *name, show_function *function, size_t rlen)
{
    struct shown shown = {0, 0, 0};
    called = name;
    for (int i = 0; i < EDGES * EDGES * EDGES; i++) {
        enum edge edge = i & 1, from_edge = i >> 1 & 1, len_edge = i >> 2 & 1;
        size_t *from = lend_number(&from_room, from_edge), *len = lend_number(&len_room, len_edge);
        size_t number = function(lent(&response_room, edge, rlen), rlen, from, len);
        hold(kept(&from_room, from_edge, sizeof *from, sizeof *from) &&
                 kept(&len_room, len_edge, sizeof *len, sizeof *len),
             "nothing beside *from and *len changes");
        hold(i == 0 || (number == shown.number && *from == shown.from && *len == shown.len),
             "the same answer wherever the octets are");
        shown = (struct shown){number, *from, *len};
    }
    hold(shown.number == 0 || (shown.number >= 2 && shown.number <= 5), "0, or 2 to 5");
    hold(shown.len != 0 || shown.from == 0, "an empty part is 0 and 0");
    hold(shown.number == 0 || shown.len == 0, "a refusal shows an empty part");
    hold(shown.from <= rlen && shown.len <= rlen - shown.from, "a part lies in the response");
    return shown;
}

/* The refusal of the response in its room. */
static size_t refusal(size_t rlen, size_t *status)
{
    size_t number = 0;
    called = "desk_refusal";
    for (int i = 0; i < EDGES * EDGES; i++) {
        enum edge edge = i & 1, status_edge = i >> 1;
        size_t *at = lend_number(&from_room, status_edge);
        size_t found = desk_refusal(lent(&response_room, edge, rlen), rlen, at);
        hold(kept(&from_room, status_edge, sizeof *at, sizeof *at),
             "nothing beside *status changes");
        hold(i == 0 || (found == number && *at == *status),
             "the same answer wherever the octets are");
        number = found;
        *status = *at;
    }
    return number;
}

/* A part's words: 0 and its place, or the refusal and its status. */
static void print_shown(struct shown shown, size_t rlen)
{
    size_t status, number = refusal(rlen, &status);
    hold(number == shown.number, "the same refusal as the part's");
    if (number == 0)
        printf("0 %zu %zu", shown.from, shown.len);
    else
        printf("%zu %zu", number, status);
}

/*
 * Checks the question and the response in their rooms, with a buffer of this size: the buffer at its two
 * edges, and `all` of the others at theirs or not.
 */
static size_t check(size_t qlen, size_t rlen, size_t size, int all, uint8_t *slip)
{
    size_t written = 0;
    called = "desk_check";
    for (int i = 0; i < (all ? EDGES * EDGES * EDGES : EDGES); i++) {
        enum edge slip_edge = i & 1, edge = i >> 1 & 1, question_edge = i >> 2 & 1;
        uint8_t *at = lend_buffer(&buffer_room, slip_edge, size);
        size_t n = desk_check(lent(&question_room, question_edge, qlen), qlen,
                              lent(&response_room, edge, rlen), rlen, at, size);
        hold(n <= size && n <= DESK_SLIP_MAX, "a slip is inside its buffer");
        hold(kept(&buffer_room, slip_edge, size, n), "nothing beside the slip changes");
        hold(i == 0 || (n == written && memcmp(at, slip, n) == 0),
             "the same slip wherever the octets are");
        written = n;
        memcpy(slip, at, n);
    }
    return written;
}

/* The slip, the same with every size of buffer that holds it, and none with a shorter one. */
static size_t check_every_size(size_t qlen, size_t rlen, uint8_t slip[DESK_SLIP_MAX])
{
    uint8_t again[DESK_SLIP_MAX];
    size_t n = check(qlen, rlen, DESK_SLIP_MAX, 1, slip);
    hold(n == (slip[0] == DESK_REFUSAL ? 3 : slip[0] == DESK_REVOKED ? 87 : 78),
         "a slip has its kind's length");
    size_t sizes[] = {0, 1, n - 1, n, n + 1, 200};
    for (size_t i = 0; i < sizeof sizes / sizeof *sizes; i++) {
        size_t m = check(qlen, rlen, sizes[i], sizes[i] == n, again);
        hold(m == (sizes[i] < n ? 0 : n), "0 exactly where the buffer is too short");
        hold(memcmp(again, slip, m) == 0, "the same slip in every buffer");
    }
    return n;
}

/* The request for a card in the question's room, at every edge, with a buffer of this size. */
static size_t request(size_t clen, size_t size, uint8_t *out)
{
    size_t written = 0;
    called = "desk_request";
    for (int i = 0; i < EDGES * EDGES; i++) {
        enum edge edge = i & 1, out_edge = i >> 1;
        uint8_t *at = lend_buffer(&buffer_room, out_edge, size);
        size_t n = desk_request(lent(&question_room, edge, clen), clen, at, size);
        hold(n <= size && n <= DESK_REQUEST_MAX, "a request is inside its buffer");
        hold(kept(&buffer_room, out_edge, size, n), "nothing beside the request changes");
        hold(i == 0 || (n == written && memcmp(at, out, n) == 0),
             "the same request wherever the octets are");
        written = n;
        memcpy(out, at, n);
    }
    return written;
}

static size_t request_every_size(size_t clen, uint8_t out[DESK_REQUEST_MAX])
{
    uint8_t again[DESK_REQUEST_MAX];
    size_t n = request(clen, DESK_REQUEST_MAX, out);
    for (size_t size = 0; size <= DESK_REQUEST_MAX + 9; size++) {
        size_t m = request(clen, size, again);
        hold(m == (size < n ? 0 : n), "0 exactly where the buffer is too short");
        hold(memcmp(again, out, m) == 0, "the same request in every buffer");
    }
    return n;
}

/* Whether the octets in the question's room are a slip. */
static size_t slip_number(size_t len)
{
    called = "desk_slip";
    size_t number = desk_slip(lent(&question_room, AT_START, len), len);
    hold(number == desk_slip(lent(&question_room, AT_END, len), len),
         "the same answer wherever the octets are");
    return number;
}

/* Cases from standard input. */

static uint8_t body[ROOM];

/* The next case's operation, its octets in body; 0 at the end. */
static int next_case(size_t *len)
{
    uint8_t head[5];
    size_t got = fread(head, 1, sizeof head, stdin);
    if (got == 0)
        return 0;
    *len = (size_t)head[1] << 24 | (size_t)head[2] << 16 | (size_t)head[3] << 8 | head[4];
    if (got != sizeof head || *len > ROOM / 2 || fread(body, 1, *len, stdin) != *len) {
        fprintf(stderr, "edges: the stream is cut off, or has a case that is too long\n");
        exit(2);
    }
    cases++;
    return head[0];
}

static void put_response(size_t from, size_t len)
{
    put(&response_room, body + from, len - from);
}

/* Puts a desk case into the rooms, and returns the question's length. */
static size_t put_case(size_t len)
{
    size_t qlen = len < DESK_QUESTION_LEN ? len : DESK_QUESTION_LEN;
    put(&question_room, body, qlen);
    put_response(qlen, len);
    return qlen;
}

static void answer_check(size_t len)
{
    uint8_t slip[DESK_SLIP_MAX];
    size_t qlen = put_case(len);
    print_hex(slip, check_every_size(qlen, len - qlen, slip));
}

static void answer_part(const char *name, show_function *function, size_t len)
{
    put_response(0, len);
    print_shown(show(name, function, len), len);
    printf("\n");
}

/* The place, 8 octets, is the ordinal. Past the last entry there is an empty part. */
static void answer_entry(size_t len)
{
    ordinal = 0;
    for (int i = 0; i < 8; i++)
        ordinal = ordinal << 8 | body[i];
    put_response(8, len);
    struct shown shown = show("desk_entry", entry_at_ordinal, len - 8);
    if (shown.number == 0 && shown.len == 0)
        printf("end");
    else
        print_shown(shown, len - 8);
    printf("\n");
}

/* Without a request there is no card (r1), or the buffer of the case is too short (r18). */
static void answer_request(void)
{
    uint8_t out[DESK_REQUEST_MAX];
    put(&question_room, body, DESK_CARD_LEN);
    size_t n = request_every_size(DESK_CARD_LEN, out);
    if (n == 0)
        printf("r1\n");
    else if (body[DESK_CARD_LEN] < n)
        printf("r18\n");
    else
        print_hex(out, n);
}

static void answer_slip(size_t len)
{
    put(&question_room, body, len);
    printf("%zu\n", slip_number(len));
}

static void answers(void)
{
    size_t len;
    for (int operation; (operation = next_case(&len)) != 0;)
        switch (operation) {
        case 1: answer_check(len); break;
        case 2: answer_part("desk_signed", desk_signed, len); break;
        case 3: answer_part("desk_signature", desk_signature, len); break;
        case 4: answer_entry(len); break;
        case 5: answer_request(); break;
        case 6: answer_slip(len); break;
        case 8: answer_run(body, len); break;
        default: fprintf(stderr, "edges: no operation %d\n", operation); exit(2);
        }
}

static void parts(void)
{
    static const struct {
        const char *name;
        show_function *function;
    } all[] = {{"desk_signed", desk_signed},
               {"desk_algorithm", desk_algorithm},
               {"desk_signature", desk_signature},
               {"desk_certificates", desk_certificates}};
    size_t len;
    for (int operation; (operation = next_case(&len)) != 0;) {
        if (operation != 1) {
            printf("-\n");
            continue;
        }
        size_t rlen = len - put_case(len);
        for (int i = 0; i < 4; i++) {
            print_shown(show(all[i].name, all[i].function, rlen), rlen);
            printf(i < 3 ? ", " : "\n");
        }
    }
}

static void places(void)
{
    size_t len;
    for (int operation; (operation = next_case(&len)) != 0;)
        if (operation == 1 || operation == 10)
            answer_place(body, len);
        else
            printf("-\n");
}

/* From the documents. */

size_t from_hex(const char *hex, uint8_t *octets)
{
    size_t n = 0;
    unsigned octet;
    for (; sscanf(hex, "%2x", &octet) == 1; hex += 2)
        octets[n++] = (uint8_t)octet;
    return n;
}

static void same(const uint8_t *given, size_t n, const char *hex)
{
    uint8_t wanted[256];
    size_t m = from_hex(hex, wanted);
    hold(n == m && memcmp(given, wanted, n) == 0, hex);
}

/* Document 01: hashes all 11 and all 22, serial 05, at M1, signed by the CA whose key hash is all 33. */
static void put_document_case(uint8_t question[DESK_QUESTION_LEN + 1])
{
    static const uint8_t response[] = {0x30, 0x03, 0x0A, 0x01, 0x06};
    memset(question, 0, DESK_QUESTION_LEN + 1);
    question[0] = 0x51;
    memset(question + 1, 0x11, 20);
    memset(question + 21, 0x22, 20);
    question[41] = 1;
    question[42] = 5;
    from_hex("42742a10", question + 66); /* 1,114,909,200 */
    question[72] = question[73] = 1;
    memset(question + 75, 0x33, 20);
    put(&response_room, response, sizeof response);
}

static void document_check(void)
{
    uint8_t question[DESK_QUESTION_LEN + 1], slip[DESK_SLIP_MAX];
    static const size_t lengths[] = {0, 1, 62, DESK_QUESTION_LEN - 1, DESK_QUESTION_LEN,
                                     DESK_QUESTION_LEN + 1};
    put_document_case(question);
    for (size_t i = 0; i < sizeof lengths / sizeof *lengths; i++) {
        size_t qlen = lengths[i];
        put(&question_room, question, qlen);
        same(slip, check_every_size(qlen, 5, slip), qlen == DESK_QUESTION_LEN ? "040406" : "040100");
    }
    /* What there is of the response is no response, down to nothing. */
    put(&question_room, question, DESK_QUESTION_LEN);
    for (size_t rlen = 0; rlen < 5; rlen++) {
        put(&response_room, (const uint8_t *)"\x30\x03\x0A\x01\x06", rlen);
        same(slip, check_every_size(DESK_QUESTION_LEN, rlen, slip), "040300");
    }
}

static void document_refusal(void)
{
    uint8_t response[DESK_RESPONSE_MAX + 1] = {0x30, 0x03, 0x0A, 0x01, 0x00};
    size_t status;
    for (unsigned code = 0; code < 256; code++) {
        int sent = code == 1 || code == 2 || code == 3 || code == 5 || code == 6;
        response[4] = (uint8_t)code;
        put(&response_room, response, 5);
        hold(refusal(5, &status) == (sent ? 4 : 3) && status == (sent ? code : 0),
             "status 1, 2, 3, 5 or 6 gives 4 and goes with it, any other 3");
    }
    static const struct {
        size_t len, number;
    } lengths[] = {{0, 3}, {4, 3}, {6, 3}, {DESK_RESPONSE_MAX, 3}, {DESK_RESPONSE_MAX + 1, 2}};
    response[4] = 6;
    for (size_t i = 0; i < sizeof lengths / sizeof *lengths; i++) {
        put(&response_room, response, lengths[i].len);
        hold(refusal(lengths[i].len, &status) == lengths[i].number && status == 0,
             "another length gives 3, one past the limit 2");
    }
}

static void document_request(void)
{
    uint8_t card[DESK_CARD_LEN + 1] = {0}, out[DESK_REQUEST_MAX];
    from_hex("c0fe0278fc99188891b3f212e9c7e1b21ab7bfc0"
             "0dfc1df0a9e0f01ce7f2b213177e6f8d157cd4f6"
             "1009342372e23aef467c832d07f8dc22ba", card);
    static const size_t lengths[] = {0, 1, 41, DESK_CARD_LEN - 1, DESK_CARD_LEN, DESK_CARD_LEN + 1};
    for (size_t i = 0; i < sizeof lengths / sizeof *lengths; i++) {
        size_t clen = lengths[i];
        put(&question_room, card, clen);
        same(out, request_every_size(clen, out),
             clen != DESK_CARD_LEN ? "" :
             "3051304f304d304b3049300906052b0e03021a0500"
             "0414c0fe0278fc99188891b3f212e9c7e1b21ab7bfc0"
             "04140dfc1df0a9e0f01ce7f2b213177e6f8d157cd4f6"
             "021009342372e23aef467c832d07f8dc22ba");
    }
}

/* The slip of the case, cut short and made longer; and a kind that there is not. */
static void document_slip(void)
{
    static const uint8_t slip[] = {0x04, 0x04, 0x06, 0x00}, unknown_kind[] = {0x05, 0x04, 0x06};
    for (size_t len = 0; len <= sizeof slip; len++) {
        put(&question_room, slip, len);
        hold(slip_number(len) == (len == 3 ? 0 : 17), "a refusal has 3 octets");
    }
    put(&question_room, unknown_kind, 3);
    hold(slip_number(3) == 17, "kind 5 is no slip");
}

int main(int argc, char **argv)
{
    const char *word = argc == 2 ? argv[1] : "";
    struct sigaction action = {.sa_handler = touched};
    sigaction(SIGSEGV, &action, NULL);
    sigaction(SIGBUS, &action, NULL);
    question_room = new_room(PROT_READ);
    response_room = new_room(PROT_READ);
    buffer_room = new_room(PROT_READ | PROT_WRITE);
    from_room = new_room(PROT_READ | PROT_WRITE);
    len_room = new_room(PROT_READ | PROT_WRITE);
    new_cache_rooms();
    new_misfit_rooms();
    if (strcmp(word, "answers") == 0)
        answers();
    else if (strcmp(word, "parts") == 0)
        parts();
    else if (strcmp(word, "places") == 0)
        places();
    else if (strcmp(word, "document") == 0) {
        document_check();
        document_refusal();
        document_request();
        document_slip();
        document_caches();
        document_misfits();
    } else {
        fprintf(stderr, "usage: edges answers | parts | places | document\n");
        return 2;
    }
    return 0;
}
