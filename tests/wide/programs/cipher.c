/* Updates in sealed blocks: a block cipher in counter mode, a keyed sum over each block, and sessions with a window of counters. */
#include <stdbool.h>
#include <stdint.h>
#include <stdio.h>

#define SESSIONS 3
#define WORDS 4
#define ROUNDS 16

typedef uint32_t word;

struct key {
    word words[4];
};

struct pair {
    word left, right;
};

struct block {
    uint16_t session;
    word counter;
    word words[WORDS];
    word tag;
};

enum verdict { GENUINE, NO_SESSION, REPLAYED, FORGED, VERDICTS };

static struct session {
    struct key key;
    word newest;
    uint8_t window;
    bool open;
} sessions[SESSIONS] = {
    {{{0x01234567, 0x89abcdef, 0xfedcba98, 0x76543210}}, .open = true},
    {.key.words = {[3] = 7}, .newest = 20, .window = 0xff, .open = true},
};

static uint16_t verdicts[VERDICTS];

static struct pair enciphered(struct pair v, struct key key)
{
    word sum = 0;
    for (int i = 0; i < ROUNDS; i++) {
        v.left += ((v.right << 4 ^ v.right >> 5) + v.right) ^ (sum + key.words[sum & 3]);
        sum += 0x9e3779b9;
        v.right += ((v.left << 4 ^ v.left >> 5) + v.left) ^ (sum + key.words[sum >> 11 & 3]);
    }
    return v;
}

static word tag_of(struct block block, struct key key)
{
    struct pair state = {block.counter, block.session};
    for (int i = 0; i < WORDS; i += 2) {
        state.left ^= block.words[i];
        state.right ^= block.words[i + 1];
        state = enciphered(state, key);
    }
    return state.left ^ state.right;
}

static struct block opened(struct block block, struct key key)
{
    for (word i = 0; i < WORDS; i += 2) {
        struct pair stream = enciphered((struct pair){block.counter, i}, key);
        block.words[i] ^= stream.left;
        block.words[i + 1] ^= stream.right;
    }
    return block;
}

static bool fresh(uint16_t s, word counter)
{
    if (counter > sessions[s].newest) {
        word ahead = counter - sessions[s].newest;
        sessions[s].window = ahead > 7 ? 1 : (uint8_t)(sessions[s].window << ahead | 1);
        sessions[s].newest = counter;
        return true;
    }
    word behind = sessions[s].newest - counter;
    if (behind > 7 || (sessions[s].window >> behind & 1))
        return false;
    sessions[s].window |= (uint8_t)(1u << behind);
    return true;
}

static enum verdict judged(struct block block)
{
    if (block.session >= SESSIONS || !sessions[block.session].open)
        return NO_SESSION;
    if (block.tag != tag_of(block, sessions[block.session].key))
        return FORGED;
    return fresh(block.session, block.counter) ? GENUINE : REPLAYED;
}

int main(void)
{
    word sum = 0;
    for (int n = 0; n < 24; n++) {
        int byte = getchar();
        if (byte < 0)
            break;
        struct block block = {.session = (uint16_t)(byte & 3), .counter = (word)(byte >> 2)};
        for (int i = 0; i < WORDS; i++)
            block.words[i] = (word)(getchar() & 255) * 0x01010101u;
        if (block.session < SESSIONS)
            block.tag = tag_of(block, sessions[block.session].key) + (byte % 7 == 0);
        enum verdict verdict = judged(block);
        verdicts[verdict]++;
        if (verdict != GENUINE)
            continue;
        block = opened(block, sessions[block.session].key);
        for (int i = 0; i < WORDS; i++)
            sum = (sum << 1 | sum >> 31) ^ block.words[i];
        putchar((int)(sum >> 24));
    }
    for (int v = 0; v < VERDICTS; v++)
        putchar(verdicts[v]);
    return (int)(sum & 0x7fffffff);
}
