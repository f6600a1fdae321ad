// The calls of the count program in plain C, by pointer: the record stays where it is and nothing copies it.
// Same rules, same checks in the same order, same record. Only tests on the way to the same answer may stop early.
// The kit has no C headers, so what is used of libc is declared here.
typedef unsigned char u8;
typedef unsigned short u16;
typedef unsigned int u32;
typedef unsigned long u64;
typedef unsigned long usize;
#define bool _Bool
#define true 1
#define false 0

long read(int file, void *to, usize size);
long write(int file, const void *from, usize size);
void *memcpy(void *to, const void *from, usize size);
void *memset(void *to, int byte, usize size);

enum { NEXUSES = 16, PLACES = 5, KEY = 32, KEYS = 4, HEAD = 20 };
enum { PUBLIC, LOCAL, ALL };

struct kads { u8 u_length, u[32], a_length, a[12]; };
struct fields {
    u8 encryption, decryption, index, ceem;
    bool rdmd, ckod, ckorp, ckorl;
    u8 key[KEY];
    struct kads kads;
};
struct set {
    u8 owner, scope;
    u32 number;
    struct fields fields;
    u8 count, keys[KEYS * KEY];
};
struct marks { bool registered, another, vendor; };
struct nexus {
    u8 scope;
    bool lock;
    u32 saved, last_local;
    struct marks marks;
};
struct device {
    u32 counter;
    struct set sets[PLACES];
    struct nexus nexuses[NEXUSES];
    u64 words[PLACES]; // beside each place the nexuses that select it
};
struct page {
    u8 scope;
    bool lock, supplemental;
    struct fields fields;
};

enum answer {
    DONE, NOT_WELL_FORMED, NEXUS_ABOVE, BY_ANOTHER, BY_VENDOR, PROTOCOL, PAGE, PAGE_LENGTH, FIELD, FIFTH_KEY, NO_PLACE,
    KEY_INSTANCE, NOT_USABLE, PLACE_ABOVE, BLOCK, UNABLE, NOT_ENCRYPTED, KEY_INCORRECT
};
enum decision { REFUSED, CLEAR, EXTERNAL, ENCRYPTED };
struct decided { enum answer answer; enum decision decision; usize place; u8 index; };
enum given { WITHHELD, PLAIN, RAW, DECRYPTED };
struct restored { enum answer answer; enum given given; usize place; };
enum event { DEMOUNT, NEXUS_LOSS, DEVICE_LOSS, PREEMPT, MICROCODE, VENDOR_RELEASE };

// ---- check 1

static bool all_zero(const u8 *bytes, usize size) { // no early return, so that the compiler takes 16 bytes at a time
    u8 any = 0;
    for (usize i = 0; i < size; i++) any |= bytes[i];
    return !any;
}

static bool set_zero(const struct set *s) {
    const struct fields *f = &s->fields;
    return !s->owner && !s->scope && !f->encryption && !f->decryption && !f->index && !f->ceem && !f->rdmd && !f->ckod
        && !f->ckorp && !f->ckorl && all_zero(f->key, KEY) && !f->kads.u_length && all_zero(f->kads.u, 32)
        && !f->kads.a_length && all_zero(f->kads.a, 12) && !s->count && all_zero(s->keys, KEYS * KEY);
}

static bool set_good(const struct set *s, usize place) {
    const struct fields *f = &s->fields;
    if (s->owner >= NEXUSES || s->scope > ALL || f->encryption > 2 || f->decryption > 3 || f->index > 1 || f->ceem > 3)
        return false;
    if (f->kads.u_length > 32 || f->kads.a_length > 12 || s->count > KEYS) return false;
    if (s->scope == 0) return set_zero(s);
    return f->index == 1 && s->scope == (place == 0 ? ALL : LOCAL)
        && all_zero(f->kads.u + f->kads.u_length, 32 - f->kads.u_length)
        && all_zero(f->kads.a + f->kads.a_length, 12 - f->kads.a_length)
        && all_zero(s->keys + s->count * KEY, (KEYS - s->count) * KEY);
}

static usize owned_count(const struct device *d, usize n) {
    usize owned = 0;
    for (usize p = 0; p < PLACES; p++) owned += d->sets[p].scope == LOCAL && d->sets[p].owner == n;
    return owned;
}

static void words_of(const struct device *d, u64 *words);

static bool well_formed(const struct device *d) {
    for (usize p = 0; p < PLACES; p++)
        if (!set_good(&d->sets[p], p)) return false;
    usize all = 0;
    for (usize n = 0; n < NEXUSES; n++) {
        u8 scope = d->nexuses[n].scope;
        if (scope > ALL) return false;
        if (scope == LOCAL && owned_count(d, n) != 1) return false;
        if (scope == ALL && (d->sets[0].scope == 0 || d->sets[0].owner != n)) return false;
        all += scope == ALL;
    }
    for (usize p = 1; p < PLACES; p++)
        if (d->sets[p].scope && d->nexuses[d->sets[p].owner].scope != LOCAL) return false;
    u64 words[PLACES];
    words_of(d, words);
    for (usize p = 0; p < PLACES; p++)
        if (d->words[p] != words[p]) return false;
    return all <= 1;
}

// ---- selecting, and the checks and marks common to commands

static usize owned_place(const struct device *d, usize n) { // PLACES where there is none
    for (usize p = 0; p < PLACES; p++)
        if (d->sets[p].scope == LOCAL && d->sets[p].owner == n) return p;
    return PLACES;
}

static usize selected(const struct device *d, usize n) {
    if (d->nexuses[n].scope != LOCAL) return 0;
    usize p = owned_place(d, n);
    return p < PLACES ? p : 0;
}

static void words_of(const struct device *d, u64 *words) {
    for (usize p = 0; p < PLACES; p++) words[p] = 0;
    for (usize n = 0; n < NEXUSES; n++) words[selected(d, n)] |= (u64)1 << n;
}

static enum answer hear(const struct device *d, u8 n) {
    if (!well_formed(d)) return NOT_WELL_FORMED;
    if (n >= NEXUSES) return NEXUS_ABOVE;
    if (d->nexuses[n].marks.another) return BY_ANOTHER;
    if (d->nexuses[n].marks.vendor) return BY_VENDOR;
    return DONE;
}

static enum answer refuse(struct device *d, u8 n, enum answer a) {
    if (a == BY_ANOTHER) d->nexuses[n].marks.another = false;
    if (a == BY_VENDOR) d->nexuses[n].marks.vendor = false;
    if (a >= PAGE && a <= NO_PLACE) d->nexuses[n].marks.registered = true;
    return a;
}

// What the places' words and numbers were before a page or an event, to tell afterwards who gets a flag.
struct uses { u64 words[PLACES]; u32 number[PLACES]; bool registered[NEXUSES]; };

static void note_uses(const struct device *d, struct uses *u) {
    for (usize p = 0; p < PLACES; p++) {
        u->words[p] = d->words[p];
        u->number[p] = d->sets[p].number;
    }
    for (usize n = 0; n < NEXUSES; n++) u->registered[n] = d->nexuses[n].marks.registered;
}

static void flag(struct device *d, const struct uses *before, int actor) { // actor -1: nobody
    u64 changed = 0;
    words_of(d, d->words);
    for (usize p = 0; p < PLACES; p++)
        changed |= d->sets[p].number != before->number[p] ? before->words[p] | d->words[p] : before->words[p] ^ d->words[p];
    for (usize n = 0; changed >> n; n++) {
        if (!(changed >> n & 1) || !before->registered[n] || (int)n == actor) continue;
        if (actor < 0) d->nexuses[n].marks.vendor = true;
        else d->nexuses[n].marks.another = true;
    }
}

// ---- establishing, releasing

static void vacate(struct device *d, usize place) {
    for (usize n = 0; n < NEXUSES; n++)
        if (selected(d, n) == place) d->nexuses[n].scope = PUBLIC;
}

static void release(struct device *d, usize place) {
    vacate(d, place);
    memset(&d->sets[place], 0, sizeof d->sets[place]);
    d->sets[place].number = ++d->counter;
}

static void establish(struct device *d, usize place, u8 owner, u8 scope, const struct fields *f) {
    release(d, place);
    d->sets[place].owner = owner;
    d->sets[place].scope = scope;
    d->sets[place].fields = *f;
}

// The place for a LOCAL set, PLACES where there is none; taken tells that it is first to be released.
static usize room_for(const struct device *d, u8 n, bool *taken) {
    *taken = false;
    if (d->nexuses[n].scope == LOCAL) {
        usize own = owned_place(d, n);
        if (own < PLACES) return own;
    }
    for (usize p = 1; p < PLACES; p++)
        if (d->sets[p].scope == 0) return p;
    *taken = true;
    for (usize p = 1; p < PLACES; p++)
        if (!d->nexuses[d->sets[p].owner].lock) return p;
    return PLACES;
}

// ---- the page

static usize word_at(const u8 *b) { return (usize)b[0] << 8 | b[1]; }

static enum answer read_kads(const u8 *list, usize size, struct kads *k) {
    int last = -1;
    while (size) {
        if (size < 4 || list[0] > 1 || list[0] <= last || list[1]) return FIELD;
        usize length = word_at(list + 2);
        if (length == 0 || length > (list[0] ? 12u : 32u) || size < 4 + length) return FIELD;
        memcpy(list[0] ? k->a : k->u, list + 4, length);
        *(list[0] ? &k->a_length : &k->u_length) = length;
        last = list[0];
        list += 4 + length;
        size -= 4 + length;
    }
    return DONE;
}

// Checks 7 to 9, and the page read.
static enum answer check_page(const struct device *d, u8 n, const u8 *b, usize size, struct page *page) {
    if (size < HEAD || word_at(b + 2) + 4 != size) return PAGE_LENGTH;
    u8 scope = b[4] >> 5;
    if (word_at(b) != 0x10 || scope > ALL) return FIELD;
    memset(page, 0, sizeof *page);
    page->scope = scope;
    if (scope == PUBLIC) {
        page->lock = b[4] & 1;
        return DONE;
    }
    const struct set *set = &d->sets[selected(d, n)];
    bool sdk = b[5] >> 3 & 1;
    if (b[4] >> 1 & 15) return FIELD;
    if (sdk) {
        u8 mode = set->fields.decryption;
        if (scope != d->nexuses[n].scope || b[7] != mode || (mode != 2 && mode != 3)) return FIELD;
    } else {
        if ((b[6] == 2 && (b[5] >> 4 & 3) == 1) || (b[5] >> 6 >= 2 && b[7] == 0) || b[6] > 2 || b[7] > 3) return FIELD;
    }
    if (b[8] != 1 || b[9] || b[10] || !all_zero(b + 11, 7)) return FIELD;
    usize length = word_at(b + 18);
    usize wanted = sdk || b[6] == 2 || b[7] == 2 || b[7] == 3 ? KEY : 0;
    if (length != wanted || size < HEAD + length) return FIELD;
    memcpy(page->fields.key, b + HEAD, length);
    const u8 *list = b + HEAD + length;
    usize rest = size - HEAD - length;
    if (sdk) {
        if (rest) return FIELD;
        if (set->count >= KEYS) return FIFTH_KEY;
        page->supplemental = true;
        return DONE;
    }
    struct fields *f = &page->fields;
    if (b[6] == 2) {
        if (read_kads(list, rest, &f->kads)) return FIELD;
    } else if (rest) {
        return FIELD;
    }
    page->lock = b[4] & 1;
    f->encryption = b[6];
    f->decryption = b[7];
    f->index = b[8];
    f->ceem = b[5] >> 6;
    f->rdmd = b[6] == 2 && (b[5] >> 4 & 3) == 3;
    f->ckod = b[5] >> 2 & 1;
    f->ckorp = b[5] >> 1 & 1;
    f->ckorl = b[5] & 1;
    return DONE;
}

static void take_page(struct device *d, u8 n, const struct page *page, usize room, bool taken) {
    struct nexus *nexus = &d->nexuses[n];
    if (page->supplemental) {
        struct set *set = &d->sets[selected(d, n)];
        memcpy(set->keys + set->count * KEY, page->fields.key, KEY);
        set->count++;
        return;
    }
    if (page->scope == LOCAL) {
        if (taken) release(d, room);
        establish(d, room, n, LOCAL, &page->fields);
    } else {
        usize own = nexus->scope == LOCAL ? owned_place(d, n) : PLACES;
        if (own < PLACES) release(d, own);
        if (page->scope == ALL) establish(d, 0, n, ALL, &page->fields);
    }
    nexus->scope = page->scope;
    u32 number = d->sets[selected(d, n)].number;
    nexus->lock = page->lock;
    if (page->lock) nexus->saved = number;
    if (page->scope == LOCAL) nexus->last_local = number;
}

// ---- the calls

__attribute__((noinline)) enum answer security_out(
    struct device *d, u8 n, u8 protocol, u16 code, const u8 *bytes, usize size) {
    enum answer a = hear(d, n);
    if (!a && protocol != 0x20) a = PROTOCOL;
    if (!a && code != 0x10) a = PAGE;
    if (a) return refuse(d, n, a);
    struct page page;
    a = check_page(d, n, bytes, size, &page);
    if (a) return refuse(d, n, a);
    usize room = 0;
    bool taken = false;
    if (!page.supplemental && page.scope == LOCAL) {
        room = room_for(d, n, &taken);
        if (room == PLACES) return refuse(d, n, NO_PLACE);
    }
    struct uses before;
    note_uses(d, &before);
    take_page(d, n, &page, room, taken);
    d->nexuses[n].marks.registered = true;
    flag(d, &before, n);
    return DONE;
}

static usize show(const u8 *page, usize length, u8 *buffer, usize size) {
    memcpy(buffer, page, length < size ? length : size);
    return length;
}

static usize add_kad(u8 *to, u8 type, const u8 *data, u8 length) {
    if (!length) return 0;
    to[0] = type;
    to[1] = to[2] = 0;
    to[3] = length;
    memcpy(to + 4, data, length);
    return 4 + length;
}

static usize show_status(const struct device *d, u8 n, u8 *buffer, usize size) {
    const struct set *s = &d->sets[selected(d, n)];
    const struct fields *f = &s->fields;
    u8 page[76] = {0, 0x20, 0};
    page[4] = d->nexuses[n].scope << 5 | s->scope;
    page[5] = f->encryption;
    page[6] = f->decryption;
    page[7] = f->index;
    page[8] = s->number >> 24;
    page[9] = s->number >> 16;
    page[10] = s->number >> 8;
    page[11] = s->number;
    page[12] = f->ceem << 1 | f->rdmd;
    usize length = 24;
    length += add_kad(page + length, 0, f->kads.u, f->kads.u_length);
    length += add_kad(page + length, 1, f->kads.a, f->kads.a_length);
    page[3] = length - 4;
    return show(page, length, buffer, size);
}

__attribute__((noinline)) enum answer security_in(
    struct device *d, u8 n, u8 protocol, u16 code, u8 *buffer, usize size, usize *length) {
    static const u8 supported_in[] = {0, 0, 0, 8, 0, 0, 0, 1, 0, 0x12, 0, 0x20};
    static const u8 supported_out[] = {0, 1, 0, 2, 0, 0x10};
    static const u8 capabilities[16] = {0, 0x12, 0, 0x0C, 1, 7, 0, 7};
    enum answer a = hear(d, n);
    if (!a && protocol != 0x20) a = PROTOCOL;
    if (!a && code != 0 && code != 1 && code != 0x12 && code != 0x20) a = PAGE;
    *length = 0;
    if (a) return refuse(d, n, a);
    if (code == 0) *length = show(supported_in, sizeof supported_in, buffer, size);
    else if (code == 1) *length = show(supported_out, sizeof supported_out, buffer, size);
    else if (code == 0x12) *length = show(capabilities, sizeof capabilities, buffer, size);
    else *length = show_status(d, n, buffer, size);
    d->nexuses[n].marks.registered = true;
    return DONE;
}

__attribute__((noinline)) struct decided decide_write(struct device *d, u8 n, bool supported) {
    enum answer a = hear(d, n);
    if (a) return (struct decided){refuse(d, n, a), REFUSED, 0, 0};
    usize place = selected(d, n);
    const struct set *s = &d->sets[place];
    u8 mode = s->fields.encryption;
    if (d->nexuses[n].lock && d->nexuses[n].saved != s->number) return (struct decided){KEY_INSTANCE, REFUSED, 0, 0};
    if (mode == 2 && !supported) return (struct decided){NOT_USABLE, REFUSED, 0, 0};
    return (struct decided){DONE, mode == 0 ? CLEAR : mode == 1 ? EXTERNAL : ENCRYPTED, place, s->fields.index};
}

static bool has_key(const struct set *s, u8 key) {
    return (s->fields.encryption == 2 || s->fields.decryption >= 2) && key <= s->count;
}

static enum answer under_mode(u8 mode, u8 kind, u8 key, enum given *given) {
    *given = kind == 0 ? PLAIN : mode == 1 ? RAW : DECRYPTED;
    if (mode == 0) return kind == 0 ? DONE : UNABLE;
    if (mode == 1) return DONE;
    if (kind == 0) return mode == 2 ? NOT_ENCRYPTED : DONE;
    if (kind == 2) return UNABLE;
    return key == 255 ? KEY_INCORRECT : DONE;
}

__attribute__((noinline)) struct restored decide_read(struct device *d, u8 n, u8 kind, u8 key) {
    enum answer a = hear(d, n);
    if (a) return (struct restored){refuse(d, n, a), WITHHELD, 0};
    usize place = selected(d, n);
    const struct set *s = &d->sets[place];
    enum given given;
    if (kind > 2 || (key != 255 && !has_key(s, key))) return (struct restored){BLOCK, WITHHELD, 0};
    a = under_mode(s->fields.decryption, kind, key, &given);
    if (a) return (struct restored){a, WITHHELD, 0};
    return (struct restored){DONE, given, place};
}

static bool is_released(const struct set *s, usize place, enum event event, u16 argument) {
    switch (event) {
    case DEMOUNT: return s->fields.ckod;
    case NEXUS_LOSS: return s->scope == LOCAL && s->owner == argument && s->fields.ckorl;
    case DEVICE_LOSS: return place == 0 && s->fields.ckorl;
    case PREEMPT: return s->fields.ckorp;
    case MICROCODE: return true;
    case VENDOR_RELEASE: return place == argument;
    }
    return false;
}

__attribute__((noinline)) enum answer happen(struct device *d, enum event event, u16 argument) {
    if (!well_formed(d)) return NOT_WELL_FORMED;
    if ((event == NEXUS_LOSS || event == PREEMPT) && argument >= NEXUSES) return NEXUS_ABOVE;
    if (event == VENDOR_RELEASE && argument >= PLACES) return PLACE_ABOVE;
    struct uses before;
    note_uses(d, &before);
    for (usize p = 0; p < PLACES; p++)
        if (d->sets[p].scope && is_released(&d->sets[p], p, event, argument)) release(d, p);
    flag(d, &before, event == PREEMPT ? argument : -1);
    return DONE;
}

// ---- the program: kind and turns/10 from standard input, the counter's low byte to standard output

static void page_k(u8 *p) {
    memset(p, 0, 52);
    p[1] = 0x10;
    p[3] = 0x30;
    p[4] = 0x21;
    p[5] = 0x44;
    p[6] = p[7] = 2;
    p[8] = 1;
    p[19] = 0x20;
    p[20] = 7;
}

// places taken by the nexuses from the first to before the end
static void take(struct device *d, u8 first, u8 end, bool lock) {
    u8 page[52];
    page_k(page);
    page[4] = 0x20 + lock;
    for (u8 n = first; n < end; n++) security_out(d, n, 0x20, 0x10, page, sizeof page);
}

static void places_taken(struct device *d, u8 kind) {
    u8 last = PLACES + 1;
    switch (kind) {
    case 6: take(d, 3, last + 1, false); break;
    case 7: take(d, 3, last, true); take(d, last, last + 1, false); break;
    case 8: take(d, 3, last, true); break;
    case 9: take(d, 3, last + 1, true); break;
    }
}

// a LOCAL page of nexus 15, which has no place; the record stays as it was, but for the counter
static void local(struct device *start) {
    struct device d = *start;
    take(&d, 15, 16, false);
    start->counter = d.counter;
}

static void turn(struct device *d, u8 kind) {
    u8 buffer[64] = {0}, page[52];
    usize length;
    page_k(page);
    switch (kind) {
    case 0: decide_write(d, 3, true); break;
    case 1: security_in(d, 3, 0x20, 0x20, buffer, sizeof buffer, &length); break;
    case 2: security_out(d, 3, 0x20, 0x10, page, sizeof page); break;
    case 3: happen(d, DEMOUNT, 0); break;
    case 4: happen(d, MICROCODE, 0); break;
    case 5: decide_read(d, 3, 1, 0); break;
    default: local(d);
    }
}

int main(void) {
    u8 input[3] = {0}, page[52];
    if (read(0, input, sizeof input) < 0) return 1;
    page_k(page);
    struct device d;
    memset(&d, 0, sizeof d);
    d.words[0] = ((u64)1 << NEXUSES) - 1; // at power-on every nexus selects place 0
    security_out(&d, 3, 0x20, 0x10, page, sizeof page);
    places_taken(&d, input[0]);
    u32 turns = input[1] * 10u;
    for (u32 i = 0; i < turns; i++) turn(&d, input[0]);
    u8 out = d.counter;
    return write(1, &out, 1) != 1;
}
