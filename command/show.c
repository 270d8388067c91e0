/* troughiron show: every device of an image. */
#include "commands.h"
#include "fields.h"
#include "image.h"
#include "json_reports.h"
#include "outputs.h"
#include "report.h"
#include "status.h"
#include "style.h"

#include <string.h>

enum { ROW = 16 };

/* A row in hexadecimal digits and in letters. */
static void dump_row(FILE *out, const uint8_t *row, size_t count)
{
    char digits[3 * ROW + 1] = "", letters[ROW + 1] = "";

    for (size_t i = 0; i < count; i++) {
        snprintf(digits + 3 * i, 4, " %02X", row[i]);
        letters[i] = row[i] >= 0x20 && row[i] < 0x7F ? (char)row[i] : '.';
    }
    fprintf(out, "%-*s  %s\n", 3 * ROW, digits, letters);
}

/* A star stands for rows like the one before it. */
static void dump(FILE *out, struct field field, const uint8_t *body)
{
    const uint8_t *const bytes = body + field.place;
    bool starred = false;

    fprintf(out, "  %s\n", field.name);
    for (size_t i = 0; i < field.size; i += ROW) {
        const size_t count = field.size - i < ROW ? field.size - i : ROW;
        const bool again = i > 0 && i + ROW < field.size && memcmp(bytes + i, bytes + i - ROW, ROW) == 0;

        if (again && !starred)
            fputs("    *\n", out);
        starred = again;
        if (again)
            continue;
        fprintf(out, "    %0*zXh", field.digits, i);
        dump_row(out, bytes + i, count);
    }
}

static void show_registers(FILE *out, const uint8_t *body)
{
    fprintf(out, "  TA   %02X%02Xh\n  E/S  ", body[TA2], body[TA1]);
    print_es(out, body[ES]);
    fputc('\n', out);
}

/*
 * Byte 0 of the status has the write protection, bytes 1 to 4 the redirection: the ones' complement of the page that
 * replaces this one.
 */
static void show_pages(FILE *out, const uint8_t *status)
{
    for (unsigned page = 0; page < PAGES; page++) {
        const bool protected = !(status[0] >> page & 1);
        const uint8_t redirection = status[1 + page];
        const unsigned to = 0xFFu - redirection;

        if (protected)
            fprintf(out, "    page %u: write-protected\n", page);
        if (redirection != 0xFF)
            fprintf(out, "    page %u: redirected to page %u%s\n", page, to, to < PAGES ? "" : ", which is not there");
    }
}

static void show_device(FILE *out, const struct device *device)
{
    char name[DEVICE_TEXT];

    device_write(name, device);
    fputc('\n', out);
    style_bright(out, style_wanted(out), name);
    fputs(device->flat ? "\n  flat: ROM functions only\n" : "\n", out);
    if (!device->kind->add_only)
        show_registers(out, device->body);
    dump(out, kind_field(device->kind, 0), device->body);
    if (device->kind->add_only)
        show_pages(out, device->body + STATUS);
    dump(out, kind_field(device->kind, 1), device->body);
}

static void show_image(FILE *out, const char *path, const struct bytes *image)
{
    const size_t count = image_count(image);

    fprintf(out, "%s: ", input_name(path));
    report_number(out, count, "device", "devices");
    fprintf(out, ", %zu bytes\n", image->length);
    for (size_t i = 0; i < count; i++) {
        const struct device device = image_device(image, i);

        show_device(out, &device);
    }
}

static int show_json(const char *path, const struct bytes *image)
{
    struct json json = { 0 };

    json_start(&json, "show");
    json_text(&json, "image", input_name(path));
    json_number(&json, "bytes", image->length);
    json_open(&json, "devices", '[');
    for (size_t i = 0; i < image_count(image); i++) {
        const struct device device = image_device(image, i);

        json_device(&json, &device);
    }
    json_close(&json, ']');
    return json_end(&json, stdout);
}

int show_command(struct words *words)
{
    struct bytes image = { 0 };
    bool json = false;
    const struct option options[] = { { "--json", NULL, &json } };
    int status = options_take(words, options, sizeof options / sizeof *options);

    if (status != DONE)
        return status;
    if (words->count != 1)
        return words_wrong(words, "one image");
    status = image_read(&image, words->list[0]);
    if (status == DONE && json) {
        status = show_json(words->list[0], &image);
    } else if (status == DONE) {
        show_image(stdout, words->list[0], &image);
        status = report_flush(stdout);
    }
    bytes_free(&image);
    return status;
}
