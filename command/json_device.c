#include "code.h"
#include "fields.h"
#include "json_reports.h"
#include "troughiron.h"

static void add_code(struct json *j, const struct device *device)
{
    char code[CODE_TEXT];

    code_write(code, device->body);
    json_text(j, "kind", device->kind->name);
    json_text(j, "code", code);
    json_bytes(j, "wire", device->body, CODE_SIZE);
}

static void add_registers(struct json *j, const uint8_t *body)
{
    json_print(j, "TA", "%02X%02X", body[TA2], body[TA1]);
    json_open(j, "E/S", '{');
    json_bytes(j, "value", body + ES, 1);
    json_number(j, "ending_offset", body[ES] & TROUGHIRON_ES_ENDING);
    json_truth(j, "AA", body[ES] & TROUGHIRON_ES_AA);
    json_truth(j, "OF", body[ES] & TROUGHIRON_ES_OF);
    json_truth(j, "PF", body[ES] & TROUGHIRON_ES_PF);
    json_close(j, '}');
}

static void add_pages(struct json *j, const uint8_t *status)
{
    json_open(j, "pages", '[');
    for (unsigned page = 0; page < PAGES; page++) {
        json_open(j, NULL, '{');
        json_number(j, "page", page);
        json_truth(j, "protected", !(status[0] >> page & 1));
        if (status[1 + page] == 0xFF)
            json_null(j, "redirected");
        else
            json_number(j, "redirected", 0xFFu - status[1 + page]);
        json_close(j, '}');
    }
    json_close(j, ']');
}

void json_device(struct json *j, const struct device *device)
{
    json_open(j, NULL, '{');
    json_number(j, "device", device->number);
    add_code(j, device);
    json_truth(j, "flat", device->flat);
    if (device->kind->add_only)
        add_pages(j, device->body + STATUS);
    else
        add_registers(j, device->body);
    for (size_t i = 0; i < FIELDS; i++) {
        const struct field field = kind_field(device->kind, i);

        json_bytes(j, field.name, device->body + field.place, field.size);
    }
    json_close(j, '}');
}
