/*
 * A host that drives 1-Wire devices through a serial adapter, for tests/serve: it knows a terminal, an adapter and the
 * 1-Wire protocol, and nothing of the bench.
 *   serve ds9097|ds2480b TERMINAL search|store|skip|read|half|overdrive
 * search prints the codes that are found; store writes a byte to 0026h of the first device and copies it; skip does so
 * with every device at once; read prints that byte of the first device; half leaves off within a byte and is killed;
 * overdrive stores a byte and prints it at that speed.
 */
#include <fcntl.h>
#include <poll.h>
#include <signal.h>
#include <stdint.h>
#include <stdio.h>
#include <stdlib.h>
#include <string.h>
#include <termios.h>
#include <unistd.h>

enum { CODE = 8, MOST = 64, SKIP = 0xCC, MATCH = 0x55, SEARCH = 0xF0, OVERDRIVE_SKIP = 0x3C };

static int port;
static int active; /* the adapter is a DS2480B */
static int fast;   /* the speed of the line is overdrive */

static void stop(const char *why)
{
    fprintf(stderr, "tests/serve.c: %s\n", why);
    exit(1);
}

/* ------------------------------------------------------------------ */
/* The serial line                                                     */

static void set_speed(speed_t speed)
{
    struct termios settings;

    if (tcgetattr(port, &settings) != 0)
        stop("no terminal");
    cfmakeraw(&settings);
    cfsetispeed(&settings, speed);
    cfsetospeed(&settings, speed);
    if (tcsetattr(port, TCSAFLUSH, &settings) != 0)
        stop("the speed cannot be set");
}

static void put(uint8_t byte)
{
    if (write(port, &byte, 1) != 1)
        stop("a byte cannot be sent");
}

static uint8_t get(void)
{
    struct pollfd file = { .fd = port, .events = POLLIN };
    uint8_t byte;

    if (poll(&file, 1, 5000) != 1 || read(port, &byte, 1) != 1)
        stop("no answer within five seconds");
    return byte;
}

/* ------------------------------------------------------------------ */
/* The adapters: a reset with its presence, and a slot with its level  */

static int passive_reset(void)
{
    set_speed(B9600);
    put(0xF0);

    const uint8_t answer = get();

    set_speed(B115200);
    return answer != 0xF0;
}

static int passive_slot(int bit)
{
    put(bit ? 0xFF : 0x00);
    return get() == 0xFF;
}

static int active_reset(void)
{
    put(fast ? 0xC9 : 0xC1);
    return (get() & 3) == 1;
}

static int active_slot(int bit)
{
    put((uint8_t)((bit ? 0x91 : 0x81) | (fast ? 0x08 : 0)));
    return get() & 1;
}

/* In data mode a byte goes at once; E3h is sent twice. */
static uint8_t active_byte(uint8_t byte)
{
    put(0xE1);
    put(byte);
    if (byte == 0xE3)
        put(byte);

    const uint8_t answer = get();

    put(0xE3);
    return answer;
}

static void begin(void)
{
    set_speed(B9600);
    if (active)
        put(0xC1); /* the byte that tells the speed, and has no answer */
    if (active) {
        put(0x0F);
        if (get() != 0x00)
            stop("the speed of the DS2480B is not 9600 baud");
        put(0x17);
        if (get() != 0x16)
            stop("a parameter of the DS2480B is not set");
    }
}

/* ------------------------------------------------------------------ */
/* The 1-Wire protocol                                                 */

static int reset(void)
{
    return active ? active_reset() : passive_reset();
}

static int slot(int bit)
{
    return active ? active_slot(bit) : passive_slot(bit);
}

static uint8_t byte(uint8_t sent)
{
    uint8_t answer = 0;

    if (active)
        return active_byte(sent);
    for (int bit = 0; bit < 8; bit++)
        answer |= (uint8_t)(slot(sent >> bit & 1) << bit);
    return answer;
}

/* One pass by single slots. Returns the last bit at which 0 was taken though both were there, or -1. */
static int pass(uint8_t code[CODE], int last)
{
    int open = -1;

    byte(SEARCH);
    for (int i = 0; i < 8 * CODE; i++) {
        const int bit = slot(1), complement = slot(1), before = code[i / 8] >> i % 8 & 1;
        int way = bit;

        if (bit && complement)
            stop("nobody is left in a search");
        if (bit == complement)
            way = i < last ? before : i == last;
        if (bit == complement && !way)
            open = i;
        slot(way);
        code[i / 8] = (uint8_t)((code[i / 8] & ~(1 << i % 8)) | way << i % 8);
    }
    return open;
}

/* The same by the search accelerator: two bits for each bit of the code, in the higher one the way asked for. */
static int fast_pass(uint8_t code[CODE], int last)
{
    uint8_t asked[2 * CODE] = { 0 };
    int open = -1;

    byte(SEARCH);
    for (int i = 0; i < 8 * CODE && i <= last; i++)
        if (i == last || code[i / 8] >> i % 8 & 1)
            asked[i / 4] |= (uint8_t)(2 << 2 * (i % 4));
    put(0xB1);
    put(0xE1);
    for (int i = 0; i < 2 * CODE; i++) {
        put(asked[i]);
        if (asked[i] == 0xE3)
            put(asked[i]);
    }
    for (int i = 0; i < 8 * CODE; i++) {
        static uint8_t answer;

        if (i % 4 == 0)
            answer = get();

        const int differs = answer >> 2 * (i % 4) & 1, way = answer >> (2 * (i % 4) + 1) & 1;

        if (differs && !way)
            open = i;
        code[i / 8] = (uint8_t)((code[i / 8] & ~(1 << i % 8)) | way << i % 8);
    }
    put(0xE3);
    put(0xA1);
    return open;
}

static size_t search(uint8_t codes[MOST][CODE])
{
    uint8_t code[CODE] = { 0 };
    size_t count = 0;
    int last = -1;

    do {
        if (!reset())
            return 0;
        last = active ? fast_pass(code, last) : pass(code, last);
        if (count == MOST)
            stop("too many codes");
        memcpy(codes[count++], code, CODE);
    } while (last >= 0);
    return count;
}

/* ------------------------------------------------------------------ */
/* What a host does                                                    */

static void address(const uint8_t *code)
{
    if (!reset())
        stop("no presence");
    byte(code ? MATCH : SKIP);
    for (int i = 0; code && i < CODE; i++)
        byte(code[i]);
}

static void send(const uint8_t *code, const uint8_t *bytes, size_t count)
{
    address(code);
    for (size_t i = 0; i < count; i++)
        byte(bytes[i]);
}

/* Writes the scratchpad, reads it back, and copies it with the registers that were read. */
static void store(const uint8_t *code, uint8_t value)
{
    uint8_t read[4];

    send(code, (const uint8_t[]){ 0x0F, 0x26, 0x00, value }, 4);
    send(code, (const uint8_t[]){ 0xAA }, 1);
    for (int i = 0; i < 4; i++)
        read[i] = byte(0xFF);
    if (read[0] != 0x26 || read[1] != 0x00 || read[3] != value)
        stop("the scratchpad is not as written");
    send(code, (const uint8_t[]){ 0x55, read[0], read[1], read[2] }, 4);
    puts(byte(0xFF) == 0x00 ? "stored" : "not stored");
}

static void read_back(const uint8_t *code)
{
    send(code, (const uint8_t[]){ 0xF0, 0x26, 0x00 }, 3);
    printf("%02X\n", byte(0xFF));
    reset();
}

/* Overdrive skip ROM, then all at overdrive; at the end a regular reset, after which nobody is there. */
static void overdrive(const uint8_t *code)
{
    if (!reset())
        stop("no presence");
    byte(OVERDRIVE_SKIP);
    fast = 1;
    store(code, 'C');
    read_back(code);
    fast = 0;
    reset();
    fast = 1;
    puts(reset() ? "at overdrive" : "at regular speed");
    fast = 0;
    reset();
}

static void print_codes(uint8_t codes[MOST][CODE], size_t count)
{
    for (size_t i = 0; i < count; i++) {
        printf("%02X ", codes[i][0]);
        for (int k = 6; k > 0; k--)
            printf("%02X", codes[i][k]);
        printf(" %02X\n", codes[i][7]);
    }
}

/* A write that ends within a byte, and a host that is killed there. */
static void half(void)
{
    send(NULL, (const uint8_t[]){ 0x0F, 0x26, 0x00, 0xE3 }, 4);
    if (active) {
        put(0xE1);
        put(0xE3); /* the first half of a data byte */
    } else {
        slot(1);
        slot(1);
    }
    raise(SIGKILL);
}

int main(int argc, char **argv)
{
    static uint8_t codes[MOST][CODE];

    if (argc != 4)
        stop("an adapter, a terminal and what to do expected");
    active = strcmp(argv[1], "ds2480b") == 0;
    port = open(argv[2], O_RDWR | O_NOCTTY);
    if (port < 0)
        stop("no such terminal");
    begin();
    if (strcmp(argv[3], "half") == 0)
        half();

    const size_t count = search(codes);

    if (strcmp(argv[3], "search") == 0)
        print_codes(codes, count);
    else if (strcmp(argv[3], "store") == 0)
        store(codes[0], 'A');
    else if (strcmp(argv[3], "skip") == 0)
        store(NULL, 'B');
    else if (strcmp(argv[3], "read") == 0)
        read_back(codes[0]);
    else if (strcmp(argv[3], "overdrive") == 0)
        overdrive(codes[0]);
    return close(port) == 0 ? 0 : 1;
}
