/* The placements of bench/placements.py once more, in plain C: the rules written down from the definitions, with no care for
   speed beyond what a C programmer takes at once. It is a second opinion and a measure; nothing is proved of it.

       plain MAP FIRST COUNT [print]

   MAP is a text of numbers: the count of devices; the count of buckets; for each bucket its id, type, kind (0 uniform, 1 list,
   2 tree, 3 straw2), count of items, and each item's id and weight; the type sought (0: devices, else a leaf below each); the size. All
   devices are in. Groups FIRST to FIRST + COUNT - 1 of pool 1 are placed; without `print` only a sum is written. */
#include <stdint.h>
#include <stdio.h>
#include <stdlib.h>
#include <string.h>
#include "logarithm.h"

typedef uint32_t u32;

enum { UNIFORM, LIST, TREE, STRAW2, MOST_ITEMS = 64, MOST_BUCKETS = 512, MOST_DEVICES = 1024, MOST = 10, TRIES = 51 };

struct bucket { int id, type, kind, count; int items[MOST_ITEMS]; u32 weights[MOST_ITEMS]; };

static struct bucket buckets[MOST_BUCKETS];
static int bucket_count, device_count, level, size;
static u32 reweights[MOST_DEVICES];
static unsigned char in_order[MOST_ITEMS];

static inline void mix(u32 *a, u32 *b, u32 *c) {
    *a -= *b; *a -= *c; *a ^= *c >> 13;  *b -= *c; *b -= *a; *b ^= *a << 8;   *c -= *a; *c -= *b; *c ^= *b >> 13;
    *a -= *b; *a -= *c; *a ^= *c >> 12;  *b -= *c; *b -= *a; *b ^= *a << 16;  *c -= *a; *c -= *b; *c ^= *b >> 5;
    *a -= *b; *a -= *c; *a ^= *c >> 3;   *b -= *c; *b -= *a; *b ^= *a << 10;  *c -= *a; *c -= *b; *c ^= *b >> 15;
}

static u32 hash2(u32 a, u32 b) {
    u32 h = 1315423911u ^ a ^ b, x = 231232, y = 1232;
    mix(&a, &b, &h); mix(&x, &a, &h); mix(&b, &y, &h);
    return h;
}

static u32 hash3(u32 a, u32 b, u32 c) {
    u32 h = 1315423911u ^ a ^ b ^ c, x = 231232, y = 1232;
    mix(&a, &b, &h); mix(&c, &x, &h); mix(&y, &a, &h); mix(&b, &x, &h); mix(&y, &c, &h);
    return h;
}

static u32 hash4(u32 a, u32 b, u32 c, u32 d) {
    u32 h = 1315423911u ^ a ^ b ^ c ^ d, x = 231232, y = 1232;
    mix(&a, &b, &h); mix(&c, &d, &h); mix(&a, &x, &h); mix(&y, &b, &h); mix(&c, &x, &h); mix(&y, &d, &h);
    return h;
}

static int uniform(const struct bucket *b, u32 x, u32 r) {
    unsigned char places[MOST_ITEMS];
    int last = r % b->count;
    memcpy(places, in_order, MOST_ITEMS);
    for (int p = 0; p <= last; p++) {
        int at = p + hash3(x, b->id, p) % (b->count - p);
        unsigned char kept = places[p];
        places[p] = places[at];
        places[at] = kept;
    }
    return b->items[places[last]];
}

static int list(const struct bucket *b, u32 x, u32 r) {
    u32 upto = 0;
    for (int i = 0; i < b->count; i++) upto += b->weights[i];
    for (int i = b->count - 1; i > 0; i--) {
        u32 draw = hash4(x, b->items[i], r, b->id) & 0xffff;
        if (((uint64_t)draw * upto >> 16) < b->weights[i]) return b->items[i];
        upto -= b->weights[i];
    }
    return b->items[0];
}

static u32 weight_of(const struct bucket *b, int from, int count) {
    int end = from + count < b->count ? from + count : b->count;
    u32 sum = 0;
    for (int i = from; i < end; i++) sum += b->weights[i];
    return sum;
}

static int tree(const struct bucket *b, u32 x, u32 r) {
    int half = 1, from = 0;
    while (half < b->count) half *= 2;
    u32 weight = weight_of(b, 0, half);
    while (half > 1) {
        half /= 2;
        u32 left = weight_of(b, from, half);
        u32 draw = hash4(x, 2 * (from + half), r, b->id);
        if ((uint64_t)draw * weight >> 32 < left) weight = left;
        else { weight -= left; from += half; }
    }
    return b->items[from];
}

/* the logarithm to the base 2 of u + 1, times 2^44, by Ceph's tables; u has 16 bits */
static int64_t logarithm(u32 u) {
    u32 x = u + 1;
    int exponent = 15;
    if (!(x & 0x18000)) {
        int bits = __builtin_clz(x) - 16;
        x <<= bits;
        exponent -= bits;
    }
    int at = x >> 8 << 1;
    uint64_t between = (uint64_t)x * rh_lh[at - 256] >> 48;
    return ((int64_t)exponent << 44) + ((rh_lh[at + 1 - 256] + ll[between & 0xff]) >> 4);
}

static int straw2(const struct bucket *b, u32 x, u32 r) {
    int high = 0;
    int64_t longest = 0;
    for (int i = 0; i < b->count; i++) {
        int64_t draw = (logarithm(hash3(x, b->items[i], r) & 0xffff) - 0x1000000000000) / b->weights[i];
        if (i == 0 || draw > longest) {
            high = i;
            longest = draw;
        }
    }
    return b->items[high];
}

static int pick(const struct bucket *b, u32 x, u32 r) {
    switch (b->kind) {
    case UNIFORM: return uniform(b, x, r);
    case LIST: return list(b, x, r);
    case TREE: return tree(b, x, r);
    default: return straw2(b, x, r);
    }
}

static const struct bucket *bucket_of(int id) { return id < 0 ? &buckets[-1 - id] : 0; }

/* the item of a type to which the picks lead; MOST_DEVICES where they lead to a device of another type */
static int descend(const struct bucket *b, int type, u32 x, u32 r) {
    for (;;) {
        int item = pick(b, x, r);
        const struct bucket *below = bucket_of(item);
        if ((below ? below->type : 0) == type) return item;
        if (!below) return MOST_DEVICES;
        b = below;
    }
}

static int is_out(int device, u32 x) {
    u32 weight = reweights[device];
    return weight < 65536 && weight <= (hash2(x, device) & 0xffff);
}

static int has(const int *chosen, int count, int item) {
    for (int i = 0; i < count; i++) if (chosen[i] == item) return 1;
    return 0;
}

/* what packing chooses below the first bucket */
static int choose(u32 x, int *leaves) {
    int items[MOST], count = 0;
    for (int rep = 0; rep < size && count < size; rep++) {
        for (int failures = 0; failures < TRIES; failures++) {
            u32 r = rep + failures;
            int item = descend(&buckets[0], level, x, r), leaf = item;
            if (item == MOST_DEVICES) break;
            if (has(items, count, item)) continue;
            if (level > 0) {
                leaf = descend(bucket_of(item), 0, x, r);
                if (leaf == MOST_DEVICES || is_out(leaf, x) || has(leaves, count, leaf)) continue;
            } else if (is_out(item, x)) continue;
            items[count] = item;
            leaves[count++] = leaf;
            break;
        }
    }
    return count;
}

static int number(FILE *in) {
    long n;
    if (fscanf(in, "%ld", &n) != 1) exit(1);
    return n;
}

static void read_map(const char *path) {
    FILE *in = fopen(path, "r");
    if (!in) exit(1);
    device_count = number(in);
    for (int i = 0; i < device_count; i++) reweights[i] = 65536;
    for (int i = 0; i < MOST_ITEMS; i++) in_order[i] = i;
    bucket_count = number(in);
    for (int k = 0; k < bucket_count; k++) {
        struct bucket *b = &buckets[k];
        b->id = number(in), b->type = number(in), b->kind = number(in), b->count = number(in);
        for (int i = 0; i < b->count; i++) b->items[i] = number(in), b->weights[i] = number(in);
    }
    level = number(in), size = number(in);
    fclose(in);
}

int main(int argc, char **argv) {
    if (argc < 4) return 1;
    read_map(argv[1]);
    u32 first = atoi(argv[2]), count = atoi(argv[3]), sum = 0;
    for (u32 n = first; n < first + count; n++) {
        int leaves[MOST];
        int placed = choose(hash2(n, 1), leaves);
        for (int i = 0; i < placed; i++) sum = sum * 31 + leaves[i];
        if (argc > 4) {
            printf("1.%x [", n);
            for (int i = 0; i < placed; i++) printf(i ? ",%d" : "%d", leaves[i]);
            puts("]");
        }
    }
    printf("%u\n", sum);
    return 0;
}
