// The index over a pool of cells, and the replay of a schedule on it.
#include "replay.h"

#include <stdbool.h>
#include <stdlib.h>
#include <string.h>

enum {
    SEATS = 16,
    SLOTS = 16,
    MOST_CELLS = 1008,
    MOST_WINDOW = 64,
    MASKED = 7,
};

// In a link: the end. In a mark: none.
#define END UINT16_C(0xFFFF)

// In a slot of the owner scheme.
#define NOBODY UINT8_C(0xFF)

// What a call answers. A refusal is its number.
enum answer {
    OUT_OF_RANGE = 1,
    WRONG_SIZES,
    MASK_RAISED,
    NOT_AWAY,
    AWAY,
    ALREADY_RUNNING,
    NOT_RUNNING,
    BAD_LINK,
    TOO_LONG,
    NO_VERSION_BYTE,
    BAD_RECORD,
    OK,
    WAIT,
    YES,
    NO,
    FULL,
};

// The call bytes.
enum call {
    CALL_SETUP,
    CALL_JOIN,
    CALL_LEAVE,
    CALL_LOOKUP,
    CALL_INSERT,
    CALL_REMOVE,
    CALL_STEP,
    CALL_ABANDON,
};

// ---- Schemes of marks ----

enum scheme_name {
    SCHEME_FULL = 1,
    SCHEME_OWNER,
    SCHEME_VERSION,
};

// The place that each seat has marked, and what the scheme keeps beside it.
struct scheme {
    enum scheme_name name;
    uint16_t marks[SEATS];
    union {
        uint8_t owners[SLOTS];
        struct {
            uint32_t seen[SEATS];
            uint32_t counters[SLOTS];
        };
    };
};

static const uint8_t spread[SLOTS] = {0, 7, 14, 5, 12, 3, 10, 1, 8, 15, 6, 13, 4, 11, 2, 9};

static inline unsigned slot_of(uint16_t place)
{
    return spread[place % SLOTS];
}

// No seat has a mark; nobody owns a slot; the counters are 0.
static void scheme_init(struct scheme *s, enum scheme_name name)
{
    s->name = name;
    for (unsigned seat = 0; seat < SEATS; seat++)
        s->marks[seat] = END;
    switch (name) {
    case SCHEME_FULL:
        break;
    case SCHEME_OWNER:
        memset(s->owners, NOBODY, sizeof s->owners);
        break;
    case SCHEME_VERSION:
        memset(s->counters, 0, sizeof s->counters);
        break;
    }
}

static inline void scheme_reserve(struct scheme *s, unsigned seat, uint16_t place)
{
    s->marks[seat] = place;
    switch (s->name) {
    case SCHEME_FULL:
        break;
    case SCHEME_OWNER:
        s->owners[slot_of(place)] = (uint8_t)seat;
        break;
    case SCHEME_VERSION:
        s->seen[seat] = s->counters[slot_of(place)];
        break;
    }
}

static inline void scheme_release(struct scheme *s, unsigned seat)
{
    s->marks[seat] = END;
}

static inline uint16_t scheme_get(const struct scheme *s, unsigned seat)
{
    uint16_t place = s->marks[seat];
    if (place == END)
        return END;
    switch (s->name) {
    case SCHEME_FULL:
        return place;
    case SCHEME_OWNER:
        return s->owners[slot_of(place)] == seat ? place : END;
    case SCHEME_VERSION:
        return s->counters[slot_of(place)] == s->seen[seat] ? place : END;
    }
    return END;
}

// The counter goes one up. The last one goes to 0 instead, and the marks kept in the slot are cleared.
static inline void count_revoke(struct scheme *s, unsigned slot)
{
    if (s->counters[slot] != UINT32_MAX) {
        s->counters[slot]++;
        return;
    }
    s->counters[slot] = 0;
    for (unsigned seat = 0; seat < SEATS; seat++)
        if (s->marks[seat] != END && slot_of(s->marks[seat]) == slot)
            s->marks[seat] = END;
}

static inline void scheme_revoke(struct scheme *s, uint16_t place)
{
    switch (s->name) {
    case SCHEME_FULL:
        for (unsigned seat = 0; seat < SEATS; seat++)
            if (s->marks[seat] == place)
                s->marks[seat] = END;
        break;
    case SCHEME_OWNER:
        s->owners[slot_of(place)] = NOBODY;
        break;
    case SCHEME_VERSION:
        count_revoke(s, slot_of(place));
        break;
    }
}

// ---- The index ----

struct cell {
    uint32_t key;
    uint16_t link;
    bool listed;
};

enum doing {
    DOING_AWAY,
    DOING_IDLE,
    DOING_LOOKUP,
    DOING_INSERT,
    DOING_REMOVE,
};

struct row {
    uint32_t target;
    uint8_t doing;
};

struct anchor {
    uint16_t count;
    uint16_t head;
    uint16_t free;
    uint8_t window;
};

struct mask {
    uint8_t level;
};

// What is lent to the calls.
struct list {
    struct cell *cells;
    size_t cell_count;
    struct row *rows;
    size_t row_count;
    struct anchor *anchor;
    struct scheme *scheme;
    struct mask *mask;
};

static bool sizes_fit(size_t cells, size_t rows, unsigned window)
{
    return cells >= 1 && cells <= MOST_CELLS && rows == SEATS && window >= 1 && window <= MOST_WINDOW;
}

// All cells are free and chained, the keys stay; all rows are away and all marks released.
static enum answer list_make(struct list *l, uint8_t window)
{
    if (!sizes_fit(l->cell_count, l->row_count, window))
        return WRONG_SIZES;
    uint16_t count = (uint16_t)l->cell_count;
    for (uint16_t at = 0; at < count; at++) {
        l->cells[at].link = at + 1 < count ? (uint16_t)(at + 1) : END;
        l->cells[at].listed = false;
    }
    for (unsigned seat = 0; seat < SEATS; seat++) {
        l->rows[seat] = (struct row){.doing = DOING_AWAY};
        scheme_release(l->scheme, seat);
    }
    *l->anchor = (struct anchor){.count = count, .head = END, .free = 0, .window = window};
    return OK;
}

enum met {
    MET_BAD,
    MET_LAST,
    MET_PRESENT,
    MET_ABSENT,
};

// Where a walk ended: the place before (END is the head), and the link that leads on from there.
struct spot {
    uint16_t lead;
    uint16_t at;
};

// How many cells a seat's next window may meet: from a mark as many as the anchor has it, from the head by the seat.
static inline unsigned width(const struct list *l, unsigned seat, uint16_t mark)
{
    unsigned window = l->anchor->window;
    return mark == END ? 1 + seat % window : window;
}

// One window's walk, from behind the mark or from the head. MET_LAST: the last cell that it may meet is still below the target.
static inline enum met walk(const struct list *l, unsigned seat, uint16_t mark, uint32_t target, struct spot *spot)
{
    const struct cell *cells = l->cells;
    const unsigned count = l->anchor->count;
    // Whole words: no narrowing between one link and the next.
    unsigned lead = mark;
    unsigned at = l->anchor->head;
    if (mark != END) {
        if (mark >= count || !cells[mark].listed)
            return MET_BAD;
        at = cells[mark].link;
    }
    for (unsigned left = width(l, seat, mark);;) {
        *spot = (struct spot){.lead = (uint16_t)lead, .at = (uint16_t)at};
        if (at >= count)
            return at == END ? MET_ABSENT : MET_BAD;
        const struct cell *cell = &cells[at];
        if (!cell->listed)
            return MET_BAD;
        if (cell->key >= target)
            return cell->key == target ? MET_PRESENT : MET_ABSENT;
        if (--left == 0)
            return MET_LAST;
        lead = at;
        at = cell->link;
    }
}

static inline void set_lead(struct list *l, uint16_t lead, uint16_t link)
{
    if (lead == END)
        l->anchor->head = link;
    else
        l->cells[lead].link = link;
}

// The operation has its answer.
static inline enum answer end_operation(struct list *l, unsigned seat, enum answer answer)
{
    scheme_release(l->scheme, seat);
    l->rows[seat].doing = DOING_IDLE;
    return answer;
}

static inline enum answer remove_cell(struct list *l, unsigned seat, struct spot spot)
{
    struct cell *cell = &l->cells[spot.at];
    set_lead(l, spot.lead, cell->link);
    cell->listed = false;
    cell->link = l->anchor->free;
    l->anchor->free = spot.at;
    scheme_revoke(l->scheme, spot.at);
    return end_operation(l, seat, YES);
}

static inline enum answer insert_cell(struct list *l, unsigned seat, struct spot spot, uint32_t key)
{
    uint16_t place = l->anchor->free;
    if (place == END)
        return end_operation(l, seat, FULL);
    if (place >= l->anchor->count || l->cells[place].listed)
        return BAD_LINK;
    l->anchor->free = l->cells[place].link;
    l->cells[place] = (struct cell){.key = key, .link = spot.at, .listed = true};
    set_lead(l, spot.lead, place);
    return end_operation(l, seat, YES);
}

static inline enum answer on_present(struct list *l, unsigned seat, struct spot spot)
{
    switch (l->rows[seat].doing) {
    case DOING_LOOKUP:
        return end_operation(l, seat, YES);
    case DOING_INSERT:
        return end_operation(l, seat, NO);
    default:
        return remove_cell(l, seat, spot);
    }
}

static inline enum answer on_absent(struct list *l, unsigned seat, struct spot spot)
{
    if (l->rows[seat].doing == DOING_INSERT)
        return insert_cell(l, seat, spot, l->rows[seat].target);
    return end_operation(l, seat, NO);
}

// One window of a running seat.
static enum answer run_window(struct list *l, unsigned seat)
{
    struct spot spot;
    switch (walk(l, seat, scheme_get(l->scheme, seat), l->rows[seat].target, &spot)) {
    case MET_LAST:
        scheme_release(l->scheme, seat);
        scheme_reserve(l->scheme, seat, spot.at);
        return WAIT;
    case MET_PRESENT:
        return on_present(l, seat, spot);
    case MET_ABSENT:
        return on_absent(l, seat, spot);
    case MET_BAD:
        break;
    }
    return BAD_LINK;
}

static enum answer join(struct list *l, unsigned seat)
{
    if (l->rows[seat].doing != DOING_AWAY)
        return NOT_AWAY;
    l->rows[seat].doing = DOING_IDLE;
    return OK;
}

static enum answer leave(struct list *l, unsigned seat)
{
    if (l->rows[seat].doing == DOING_AWAY)
        return AWAY;
    l->rows[seat].doing = DOING_AWAY;
    scheme_release(l->scheme, seat);
    return OK;
}

static enum answer begin(struct list *l, unsigned seat, enum doing kind, uint32_t target)
{
    if (l->rows[seat].doing == DOING_AWAY)
        return AWAY;
    if (l->rows[seat].doing != DOING_IDLE)
        return ALREADY_RUNNING;
    l->rows[seat] = (struct row){.target = target, .doing = (uint8_t)kind};
    return OK;
}

static enum answer step(struct list *l, unsigned seat)
{
    if (l->rows[seat].doing == DOING_AWAY)
        return AWAY;
    if (l->rows[seat].doing == DOING_IDLE)
        return NOT_RUNNING;
    return run_window(l, seat);
}

static enum answer abandon(struct list *l, unsigned seat)
{
    if (l->rows[seat].doing == DOING_AWAY)
        return AWAY;
    if (l->rows[seat].doing == DOING_IDLE)
        return NOT_RUNNING;
    l->rows[seat].doing = DOING_IDLE;
    scheme_release(l->scheme, seat);
    return OK;
}

// ---- Reading a schedule ----

struct reader {
    const uint8_t *at;
    size_t left;
    bool first;
};

struct record {
    enum call call;
    uint8_t seat;
    uint32_t sector;
    enum scheme_name scheme;
    uint16_t cells;
    uint8_t window;
};

static inline uint16_t two_bytes(const uint8_t *p)
{
    return (uint16_t)(p[0] << 8 | p[1]);
}

static inline uint32_t four_bytes(const uint8_t *p)
{
    return (uint32_t)p[0] << 24 | (uint32_t)p[1] << 16 | (uint32_t)p[2] << 8 | p[3];
}

// What the record says, from its call byte on; false where these bytes are no record.
static inline bool decode(const uint8_t *p, size_t len, struct record *record)
{
    switch (len) {
    case 2:
        if (p[0] != CALL_JOIN && p[0] != CALL_LEAVE && p[0] != CALL_STEP && p[0] != CALL_ABANDON)
            return false;
        *record = (struct record){.call = p[0], .seat = p[1]};
        return true;
    case 5:
        if (p[0] != CALL_SETUP || p[1] < SCHEME_FULL || p[1] > SCHEME_VERSION)
            return false;
        *record = (struct record){.call = p[0], .scheme = p[1], .cells = two_bytes(p + 2), .window = p[4]};
        return true;
    case 6:
        if (p[0] < CALL_LOOKUP || p[0] > CALL_REMOVE)
            return false;
        *record = (struct record){.call = p[0], .seat = p[1], .sector = four_bytes(p + 2)};
        return true;
    default:
        return false;
    }
}

// The next record; false where what is left begins none that may stand there. There are bytes left.
static inline bool next_record(struct reader *r, struct record *record)
{
    if (r->left < 2)
        return false;
    size_t len = two_bytes(r->at);
    if (r->left - 2 < len || !decode(r->at + 2, len, record))
        return false;
    if ((record->call == CALL_SETUP) != r->first)
        return false;
    r->at += 2 + len;
    r->left -= 2 + len;
    r->first = false;
    return true;
}

// ---- Writing the text ----

struct text {
    char *bytes;
    size_t len;
    size_t room;
    bool grows;
};

static bool make_room(struct text *t, size_t more)
{
    if (!t->grows)
        return false;
    size_t room = t->room == 0 ? 256 : t->room;
    while (room - t->len < more)
        room *= 2;
    char *bytes = realloc(t->bytes, room);
    if (bytes == NULL)
        return false;
    t->bytes = bytes;
    t->room = room;
    return true;
}

static const struct word {
    char text[14];
    uint8_t len;
} words[] = {
    [OUT_OF_RANGE] = {" refused 1\n", 11},
    [WRONG_SIZES] = {" refused 2\n", 11},
    [MASK_RAISED] = {" refused 3\n", 11},
    [NOT_AWAY] = {" refused 4\n", 11},
    [AWAY] = {" refused 5\n", 11},
    [ALREADY_RUNNING] = {" refused 6\n", 11},
    [NOT_RUNNING] = {" refused 7\n", 11},
    [BAD_LINK] = {" refused 8\n", 11},
    [TOO_LONG] = {" refused 9\n", 11},
    [NO_VERSION_BYTE] = {" refused 10\n", 12},
    [BAD_RECORD] = {" refused 11\n", 12},
    [OK] = {" ok\n", 4},
    [WAIT] = {" wait\n", 6},
    [YES] = {" yes\n", 5},
    [NO] = {" no\n", 4},
    [FULL] = {" full\n", 6},
};

// One line: the number, and the answer's word with the line feed. False where there is no room for it.
static inline bool write_line(struct text *t, uint32_t number, enum answer answer)
{
    char digits[10];
    size_t from = sizeof digits;
    do {
        digits[--from] = (char)('0' + number % 10);
        number /= 10;
    } while (number != 0);
    size_t count = sizeof digits - from;
    const struct word *word = &words[answer];
    size_t more = count + word->len;
    if (t->room - t->len < more && !make_room(t, more))
        return false;
    memcpy(t->bytes + t->len, digits + from, count);
    memcpy(t->bytes + t->len + count, word->text, word->len);
    t->len += more;
    return true;
}

// ---- The replay ----

// The five calls by plain seat number, under the raised mask. The level of before is put back.
static enum answer make_call(struct list *l, const struct record *record)
{
    unsigned seat = record->seat;
    uint8_t level = l->mask->level;
    enum answer answer = BAD_RECORD;
    if (seat >= SEATS)
        return OUT_OF_RANGE;
    if (!sizes_fit(l->cell_count, l->row_count, l->anchor->window) || l->cell_count != l->anchor->count)
        return WRONG_SIZES;
    if (level >= MASKED)
        return MASK_RAISED;
    l->mask->level = MASKED;
    switch (record->call) {
    case CALL_JOIN:
        answer = join(l, seat);
        break;
    case CALL_LEAVE:
        answer = leave(l, seat);
        break;
    case CALL_LOOKUP:
        answer = begin(l, seat, DOING_LOOKUP, record->sector);
        break;
    case CALL_INSERT:
        answer = begin(l, seat, DOING_INSERT, record->sector);
        break;
    case CALL_REMOVE:
        answer = begin(l, seat, DOING_REMOVE, record->sector);
        break;
    case CALL_STEP:
        answer = step(l, seat);
        break;
    case CALL_ABANDON:
        answer = abandon(l, seat);
        break;
    case CALL_SETUP:
        break;
    }
    l->mask->level = level;
    return answer;
}

// The lines of all records after the first. False where the text has no room.
static bool replay_calls(struct list *l, struct reader *reader, struct text *text)
{
    for (uint32_t number = 2; reader->left != 0; number++) {
        struct record record = {0};
        if (!next_record(reader, &record))
            return write_line(text, number, BAD_RECORD);
        if (!write_line(text, number, make_call(l, &record)))
            return false;
    }
    return true;
}

// The setup, and then the calls.
static bool replay_records(struct reader *reader, struct text *text)
{
    struct cell cells[MOST_CELLS];
    struct row rows[SEATS];
    struct anchor anchor = {0};
    struct scheme scheme;
    struct mask mask = {.level = 0};
    struct record setup = {0};
    if (!next_record(reader, &setup))
        return write_line(text, 1, BAD_RECORD);
    // More cells than there are to lend.
    if (setup.cells > MOST_CELLS)
        return write_line(text, 1, WRONG_SIZES);
    struct list list = {
        .cells = cells,
        .cell_count = setup.cells,
        .rows = rows,
        .row_count = SEATS,
        .anchor = &anchor,
        .scheme = &scheme,
        .mask = &mask,
    };
    scheme_init(&scheme, setup.scheme);
    enum answer made = list_make(&list, setup.window);
    if (!write_line(text, 1, made))
        return false;
    return made != OK || replay_calls(&list, reader, text);
}

static bool replay(const uint8_t *bytes, size_t len, struct text *text)
{
    if (len > SCHEDULE_BYTES)
        return write_line(text, 0, TOO_LONG);
    if (len == 0 || bytes[0] != 1)
        return write_line(text, 0, NO_VERSION_BYTE);
    struct reader reader = {.at = bytes + 1, .left = len - 1, .first = true};
    return reader.left == 0 || replay_records(&reader, text);
}

size_t replay_c(const uint8_t *bytes, size_t len, char *out, size_t room)
{
    struct text text = {.bytes = out, .len = 0, .room = room, .grows = false};
    return replay(bytes, len, &text) ? text.len : SIZE_MAX;
}

char *replay_c_grown(const uint8_t *bytes, size_t len, size_t *text_len)
{
    struct text text = {.bytes = malloc(256), .len = 0, .room = 256, .grows = true};
    if (text.bytes == NULL)
        return NULL;
    if (!replay(bytes, len, &text)) {
        free(text.bytes);
        return NULL;
    }
    *text_len = text.len;
    return text.bytes;
}

size_t replay_c_cell_bytes(void)
{
    return sizeof(struct cell);
}
