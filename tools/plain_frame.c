/* A plain loop in C, as a yardstick for the time of one frame.

     gcc -O2 -o plain_frame tools/plain_frame.c
     plain_frame FILE FRAMES     nanoseconds a frame, averaged over so many frames
     plain_frame FILE < SCRIPT   the output codes of the script's frames, to see that the loop is right

   The file is taken as it is and not judged. Weight and bias codes are worked out once; sums are of 64 bits, and no
   partial sum or output is tested. */
#include <stdint.h>
#include <stdio.h>
#include <stdlib.h>
#include <string.h>
#include <time.h>

enum { MOST_WIRES = 64, MOST_STAGES = 16, MOST_BYTES = 65536, FRAMES_KEPT = 64 };

struct stage {
    int kind, size, before, after, shift;
    int32_t *weights;
    int64_t *biases;
};

static uint8_t data[MOST_BYTES];
static struct stage stages[MOST_STAGES];
static int stage_count, input_count;

static int32_t number(int place)
{
    return (int32_t)((uint32_t)data[place] << 24 | (uint32_t)data[place + 1] << 16 | data[place + 2] << 8 | data[place + 3]);
}

/* Right shifts of negative numbers go to the floor, as gcc has them. */
static void read_row_stage(struct stage *stage, int place, int fx)
{
    int fw = data[place + 4], fy = data[place + 6];
    int weights = stage->kind == 1 ? stage->size * stage->before : stage->size;
    int biases = stage->kind == 1 ? stage->size : 1;
    stage->after = stage->kind == 1 ? stage->size : stage->before - stage->size + 1;
    stage->shift = fw + fx - fy;
    stage->weights = malloc(sizeof(int32_t) * weights);
    stage->biases = malloc(sizeof(int64_t) * biases);
    for (int j = 0; j < weights; j++)
        stage->weights[j] = number(place + 8 + 4 * j) >> (24 - fw);
    for (int j = 0; j < biases; j++)
        stage->biases[j] = number(place + 8 + 4 * (weights + j)) >> (24 - fw - fx);
}

static void read_network(void)
{
    input_count = data[3];
    stage_count = data[7];
    int count = input_count, fraction = data[5], place = 24 + 12 * count;
    for (int k = 0; k < stage_count; k++) {
        struct stage *stage = &stages[k];
        stage->kind = data[place + 2];
        stage->size = data[place + 3];
        stage->before = stage->after = count;
        if (stage->kind <= 2) {
            read_row_stage(stage, place, fraction);
            fraction = data[place + 6];
        } else if (stage->kind == 3) {
            stage->after = (count + stage->size - 1) / stage->size;
        } else if (stage->kind == 5) {
            stage->after = count * stage->size;
        }
        count = stage->after;
        place += 2 + (data[place] << 8 | data[place + 1]);
    }
}

static int32_t row(const int32_t *weights, int64_t sum, const int32_t *codes, int count, int shift)
{
    for (int i = 0; i < count; i++)
        sum += (int64_t)weights[i] * codes[i];
    return (int32_t)(sum >> shift);
}

static void run(const struct stage *stage, const int32_t *in, int32_t *out)
{
    int n = stage->before, size = stage->size;
    switch (stage->kind) {
    case 1:
        for (int o = 0; o < size; o++)
            out[o] = row(stage->weights + o * n, stage->biases[o], in, n, stage->shift);
        break;
    case 2:
        for (int o = 0; o < stage->after; o++)
            out[o] = row(stage->weights, stage->biases[0], in + o, size, stage->shift);
        break;
    case 3:
        for (int o = 0; o < stage->after; o++) {
            out[o] = in[o * size];
            for (int i = o * size; i < n && i < (o + 1) * size; i++)
                out[o] = in[i] > out[o] ? in[i] : out[o];
        }
        break;
    case 4:
        for (int i = 0; i < n; i++)
            out[i] = in[i] < 0 ? 0 : in[i];
        break;
    default:
        for (int o = 0; o < stage->after; o++)
            out[o] = in[o / size];
    }
}

static int32_t frame(const int32_t *codes)
{
    int32_t wires[2][MOST_WIRES];
    const int32_t *in = codes;
    for (int k = 0; k < stage_count; k++) {
        run(&stages[k], in, wires[k % 2]);
        in = wires[k % 2];
    }
    return in[0];
}

/* Some codes inside the input ranges. */
static void some_codes(int32_t *codes, uint64_t *seed)
{
    for (int i = 0; i < input_count; i++) {
        int32_t low = number(24 + 12 * i), high = number(28 + 12 * i);
        *seed = *seed * 6364136223846793005u + 1442695040888963407u;
        codes[i] = low + (int32_t)((*seed >> 33) % (uint32_t)(high - low + 1));
    }
}

static void time_frames(long frames)
{
    static int32_t codes[FRAMES_KEPT][MOST_WIRES];
    uint64_t seed = 1;
    for (int i = 0; i < FRAMES_KEPT; i++)
        some_codes(codes[i], &seed);
    struct timespec start, end;
    int64_t sum = 0;
    clock_gettime(CLOCK_MONOTONIC, &start);
    for (long i = 0; i < frames; i++)
        sum += frame(codes[i % FRAMES_KEPT]);
    clock_gettime(CLOCK_MONOTONIC, &end);
    double spent = (end.tv_sec - start.tv_sec) * 1e9 + (end.tv_nsec - start.tv_nsec);
    printf("%.0f ns a frame over %ld frames (output codes add up to %lld)\n", spent / frames, frames, (long long)sum);
}

static void answer_frames(void)
{
    char *line = NULL;
    size_t room = 0;
    while (getline(&line, &room, stdin) > 0) {
        if (strncmp(line, "frame ", 6) != 0)
            continue;
        int32_t codes[MOST_WIRES];
        char *rest = line + 6;
        for (int i = 0; i < input_count; i++)
            codes[i] = (int32_t)strtol(rest, &rest, 10);
        printf("code %d\n", frame(codes));
    }
    free(line);
}

int main(int count, char **arguments)
{
    FILE *file = count > 1 ? fopen(arguments[1], "rb") : NULL;
    if (!file || fread(data, 1, MOST_BYTES, file) < 24) {
        fprintf(stderr, "plain_frame FILE FRAMES, or plain_frame FILE < SCRIPT\n");
        return 1;
    }
    fclose(file);
    read_network();
    if (count > 2)
        time_frames(atol(arguments[2]));
    else
        answer_frames();
    return 0;
}
