/* plan_folder FOLDER [THREADS] [OPTION].. : plans each .wasm file of a folder, with as many threads
 * as there are processors, and prints how many modules and bytes a second. The calls of two threads
 * share nothing. The status is 1 where a file cannot be read or memory ends. */
#define _POSIX_C_SOURCE 200809L
#include "files.h"
#include <dirent.h>
#include <pthread.h>
#include <stdatomic.h>
#include <time.h>
#include <unistd.h>

typedef struct {
    char **names;
    size_t len;
    atomic_size_t next;                 /* the file that is taken next */
    bobbinazure_options options;
} work;

typedef struct {
    work *of;
    size_t planned, refused, failed, bytes, images;
} share;

static void plan_one(share *mine, const char *name) {
    size_t len;
    uint8_t *bytes = read_file(name, &len);
    if (!bytes) {
        mine->failed++;
        return;
    }
    bobbinazure_plan plan = bobbinazure_plan_init();
    switch (bobbinazure_make_plan(bytes, len, &mine->of->options, &plan)) {
    case BOBBINAZURE_PLANNED: mine->planned++; break;
    case BOBBINAZURE_REFUSED: mine->refused++; break;
    default: mine->failed++; break;
    }
    mine->bytes += len;
    mine->images += plan.images.len;
    bobbinazure_plan_free(&plan);       /* before the bytes, to which it refers */
    free(bytes);
}

static void *plan_share(void *argument) {
    share *mine = argument;
    for (size_t i; (i = atomic_fetch_add(&mine->of->next, 1)) < mine->of->len;) plan_one(mine, mine->of->names[i]);
    return 0;
}

static int list_folder(work *all, const char *folder) {
    DIR *files = opendir(folder);
    if (!files) return 0;
    size_t room = 0;
    for (struct dirent *file; (file = readdir(files));) {
        size_t len = strlen(file->d_name);
        if (len < 5 || strcmp(file->d_name + len - 5, ".wasm")) continue;
        if (all->len == room) {
            char **more = realloc(all->names, (room = room ? 2 * room : 64) * sizeof *more);
            if (!more) return 0;
            all->names = more;
        }
        size_t whole = strlen(folder) + len + 2;
        char *name = malloc(whole);
        if (!name) return 0;
        snprintf(name, whole, "%s/%s", folder, file->d_name);
        all->names[all->len++] = name;
    }
    closedir(files);
    return 1;
}

int main(int argc, char **argv) {
    work all = {.options = bobbinazure_options_init()};
    long threads = sysconf(_SC_NPROCESSORS_ONLN);
    if (argc < 2) return 2;
    for (int i = 2; i < argc; i++) {
        if (argv[i][0] != '-') threads = atol(argv[i]);
        else if (!set_option(&all.options, argv[i])) return 2;
    }
    if (threads < 1 || threads > 1024 || !list_folder(&all, argv[1])) return 2;
    share *shares = calloc((size_t)threads, sizeof *shares);
    pthread_t *ids = calloc((size_t)threads, sizeof *ids);
    if (!shares || !ids) return 1;
    struct timespec from, to;
    clock_gettime(CLOCK_MONOTONIC, &from);
    long started = 0;
    for (; started < threads; started++) {
        shares[started].of = &all;
        if (pthread_create(&ids[started], 0, plan_share, &shares[started])) break;
    }
    share sum = {0};
    for (long i = 0; i < started; i++) {
        pthread_join(ids[i], 0);
        sum.planned += shares[i].planned, sum.refused += shares[i].refused, sum.failed += shares[i].failed;
        sum.bytes += shares[i].bytes, sum.images += shares[i].images;
    }
    clock_gettime(CLOCK_MONOTONIC, &to);
    double seconds = (double)(to.tv_sec - from.tv_sec) + (double)(to.tv_nsec - from.tv_nsec) / 1e9;
    printf("threads %ld: %zu planned, %zu refused, %zu failed; %.0f modules a second, %.1f MB a second\n", started, sum.planned, sum.refused,
           sum.failed, (double)all.len / seconds, (double)sum.bytes / seconds / 1e6);
    for (size_t i = 0; i < all.len; i++) free(all.names[i]);
    free(all.names), free(shares), free(ids);
    return started == 0 || sum.failed ? 1 : 0;
}
