// The benchmark of Zwirotek's library beside C: `table` prints the table, `growth` the picture, on standard output.
#include "bench.h"

int strcmp(const char *, const char *);
int fflush(void *);

static void load_words(u32 *state, const u32 *dir, usize n) {
    memcpy(state, dir, n * sizeof *dir);
}

static void store_words(const u32 *state, u32 *dir, usize n) {
    memcpy(dir, state, n * sizeof *dir);
}

const struct engine engines[ENGINES] = {
    [OURS] = { "Zwirotek", replay_fresh, replay_check, ours_request, ours_run, load_words, store_words },
    [PLAIN] = { "plain C", plain_fresh, plain_check, plain_request, plain_run, load_words, store_words },
    [HASHED] = { "hashed C", hashed_fresh, hashed_check, hashed_request, hashed_run, hashed_load, hashed_store },
};

const struct policy policies[POLICIES] = {
    { CAR, "CAR", 2 },
    { CART, "CART", 2 },
    { FIFO, "FIFO", 1 },
    { CLOCK, "CLOCK", 1 },
    { LRU, "LRU", 1 },
};

int main(int count, char **arguments) {
    const char *what = count == 2 ? arguments[1] : "";
    void (*show)(void) = strcmp(what, "table") == 0 ? print_table : strcmp(what, "growth") == 0 ? draw_growth : 0;
    if (!show) {
        dprintf(STANDARD_ERROR, "usage: bench table | growth\n");
        return 2;
    }
    agree_on_fresh();
    show();
    if (fflush(0) != 0) {
        dprintf(STANDARD_ERROR, "bench: standard output cannot be written\n");
        return 1;
    }
    return 0;
}
