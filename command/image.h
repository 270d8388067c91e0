/* Images of benches. Whether an image is one is asked of the library and of nobody else. */
#ifndef IMAGE_H
#define IMAGE_H

#include "bytes.h"
#include "kind.h"

/* A device of an accepted image. */
struct device {
    size_t number; /* from 1 */
    const struct kind *kind;
    bool flat;
    const uint8_t *body;
};

/* Edition 2 has a byte in each entry that tells whether the device is flat; in edition 1 that byte is zero. */
enum { EDITION = 1, EDITION_WITH_FLAT = 2, TABLE = 2, ENTRY_SIZE = 4 };

/* Reads an image that the library accepts. Returns DONE, or says why not. */
int image_read(struct bytes *image, const char *path);

/* The library's refusal of an image, 1 to 4, or 0. */
uint32_t image_refusal(const struct bytes *image);

/* Of an accepted image: the number of devices, and one of them by its index. */
size_t image_count(const struct bytes *image);
struct device image_device(const struct bytes *image, size_t index);

/* The index of "#2", a device of an accepted image, or the number of its devices where it has no such device. */
size_t image_index(const struct bytes *image, const char *word);

/*
 * The image of a list of devices. Edition 2 only where one of them is flat: an image that edition 1 can say is the same
 * for older programs.
 */
void image_of(struct bytes *image, const struct device *list, size_t count);

/* The devices of an accepted image, in room for as many as it has. Returns how many they are. */
size_t image_devices(const struct bytes *image, struct device *list);

/* Writes "#2 DS1992 08 000000000002 E4", the name of a device, into room for it. */
enum { DEVICE_TEXT = 48 };
void device_write(char text[DEVICE_TEXT], const struct device *device);

#endif
