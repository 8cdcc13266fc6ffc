/* A loader: it formats a file, or standard input without an argument, in fixed memory.
 *
 * Pages go to standard output, a refusal to standard error. The exit status is 0 if all pages are written, 1 if the
 * document is refused, 2 if the command is misused or a file cannot be read or written. */
#include <rockavine.h>
#include <stdio.h>

enum { ROOM = 61, LONGEST = 509 };

/* The blocks are of odd sizes by turns, as a line or a tape might hand them over. */
static const size_t sizes[4] = {1, 7, 64, LONGEST};

static rockavine_record record;
static uint8_t store[ROCKAVINE_STORE_SIZE];
static uint8_t out[ROOM];
static uint8_t buffer[LONGEST];

/* The bytes of the buffer that are not taken yet. */
struct block {
    size_t at;
    size_t end;
    int last;
    size_t turn;
};

/* Reads the next block; 0 if that failed. */
static int fill(struct block *block, FILE *file)
{
    size_t size = sizes[block->turn % 4];
    block->turn += 1;
    block->at = 0;
    block->end = fread(buffer, 1, size, file);
    /* A short block is the last one, or nothing could be read. */
    block->last = block->end < size;
    return !ferror(file);
}

static int misused(const char *what)
{
    fprintf(stderr, "loader: %s\n", what);
    return 2;
}

static int refused(const rockavine_reply *reply)
{
    fprintf(stderr, "loader: refused %u at line %lu\n", (unsigned)reply->number, (unsigned long)reply->line);
    return 1;
}

static int format(FILE *file)
{
    struct block block = {0, 0, 0, 0};
    rockavine_start(&record);
    for (;;) {
        rockavine_reply reply;
        rockavine_answer answer;
        if (block.at == block.end && !block.last && !fill(&block, file)) {
            return misused("cannot read");
        }
        answer = rockavine_call(&record, store, sizeof store, buffer + block.at, block.end - block.at, block.last, out,
                                sizeof out, &reply);
        block.at += reply.taken;
        if (fwrite(out, 1, reply.written, stdout) != reply.written) {
            return misused("cannot write");
        }
        if (answer == ROCKAVINE_REFUSED) {
            return refused(&reply);
        }
        if (answer == ROCKAVINE_DONE) {
            return 0;
        }
    }
}

int main(int count, char **words)
{
    FILE *file = stdin;
    int status;
    if (count > 2) {
        return misused("usage: loader [FILE]");
    }
    if (rockavine_version() != ROCKAVINE_VERSION) {
        return misused("the library is of another version than the header");
    }
    if (count == 2) {
        file = fopen(words[1], "rb");
        if (file == NULL) {
            return misused("cannot open the file");
        }
    }
    status = format(file);
    if (file != stdin) {
        fclose(file);
    }
    if (fflush(stdout) != 0) {
        return misused("cannot write");
    }
    return status;
}
