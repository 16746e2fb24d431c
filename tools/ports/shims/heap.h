/* malloc, free and realloc for a program of one thread, where there is no C library. Memory comes in blocks with room
   for 4, 5, 6 or 7 times a power of two bytes, in front of which 16 bytes say which kind it is; those that were given
   back are kept by kind. A block is made at the end of what was handed out before, or one of its kind is taken that was
   given back. The last one is given back to that end. */

/* Makes sure that there is memory up to this address, and answers whether there is. */
static int reach(uintptr_t end);

#ifdef HAS_MAPS
/* New memory of so many bytes, of which each page is 0; the same memory with another length, elsewhere if it has to be;
   both answer NULL where there is none. And its return. */
static void *map_new(size_t bytes);
static void *map_grown(void *place, size_t bytes, size_t wanted);
static void map_back(void *place, size_t bytes);
#endif

typedef struct block {
    size_t kind; /* or the bytes of a mapped block */
    struct block *next; /* of those that were given back */
} block;

/* blocks with more room than MAPPED are mapped by themselves, in multiples of PIECE */
enum { LEAST_KIND = 8, KINDS = 4 * 48, MAPPED = 1 << 17, PIECE = 1 << 16 };
#define MOST_BYTES ((size_t)1 << 46)

static uintptr_t end; /* of what was handed out, a multiple of 16 */
static block *given_back[KINDS];

static size_t room_of(size_t kind) { return (4 + kind % 4) << kind / 4; }

/* The least kind of block that has room for so many bytes: the one above the greatest that has just room for one less
   at most. */
static size_t kind_for(size_t size) {
    if (size <= room_of(LEAST_KIND)) return LEAST_KIND;
    size_t shift = 61 - __builtin_clzll(size - 1);
    return 4 * shift + ((size - 1) >> shift) - 3;
}

/* Where a block of a kind ends that begins here. */
static uintptr_t end_of(const block *place, size_t kind) {
    return ((uintptr_t)(place + 1) + room_of(kind) + 15) & ~(uintptr_t)15;
}

#ifdef HAS_MAPS
/* A block is mapped by itself from this size on, so that its pages are moved where it grows, and given back whole. */
static size_t mapped_bytes(size_t size) { return (size + sizeof(block) + PIECE - 1) & ~(size_t)(PIECE - 1); }

static int is_mapped(const block *place) { return place->kind >= MAPPED; }

static void *mapped(block *place, size_t bytes) {
    if (!place) return NULL;
    place->kind = bytes;
    return place + 1;
}
#endif

/* So many bytes at a multiple of 16, or NULL where there is no memory. */
void *malloc(size_t size) {
    if (size > MOST_BYTES) return NULL;
#ifdef HAS_MAPS
    if (size > MAPPED) return mapped(map_new(mapped_bytes(size)), mapped_bytes(size));
#endif
    size_t kind = kind_for(size);
    block *found = given_back[kind];
    if (found) {
        given_back[kind] = found->next;
        return found + 1;
    }
    found = (block *)end;
    if (!reach(end_of(found, kind))) return NULL;
    end = end_of(found, kind);
    found->kind = kind;
    return found + 1;
}

/* Takes back what malloc or realloc answered. */
void free(void *place) {
    if (!place) return;
    block *old = (block *)place - 1;
#ifdef HAS_MAPS
    if (is_mapped(old)) {
        map_back(old, old->kind);
        return;
    }
#endif
    if (end_of(old, old->kind) == end) {
        end = (uintptr_t)old;
        return;
    }
    old->next = given_back[old->kind];
    given_back[old->kind] = old;
}

/* Whether the last block can grow to this size where it stands, and does: where a block of that kind was given back,
   that is taken. */
static int grows_in_place(block *old, size_t size) {
#ifdef HAS_MAPS
    if (size > MAPPED) return 0;
#endif
    size_t kind = kind_for(size);
    if (given_back[kind] || end_of(old, old->kind) != end || !reach(end_of(old, kind))) return 0;
    end = end_of(old, kind);
    old->kind = kind;
    return 1;
}

/* The same bytes with room for so many, where they stand if that can be; NULL, and all as it was, where there is no
   memory. */
void *realloc(void *place, size_t size) {
    block *old = (block *)place - 1;
    if (size > MOST_BYTES) return NULL;
#ifdef HAS_MAPS
    if (is_mapped(old)) {
        size_t bytes = mapped_bytes(size);
        return bytes <= old->kind ? place : mapped(map_grown(old, old->kind, bytes), bytes);
    }
#endif
    size_t room = room_of(old->kind);
    if (size <= room || grows_in_place(old, size)) return place;
    void *to = malloc(size);
    if (!to) return NULL;
    __builtin_memcpy(to, place, room);
    free(place);
    return to;
}
