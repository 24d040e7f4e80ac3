/* The calls of ferretgold_image.h: entries are listed, and a cache begins with them. They look for null
 * pointers, and the proved library does the rest: an image's pointer is its pointer to a list. */
#include "ferretgold_image.h"
#include "opening.h"

/* What an image stands for. */
static ferretgold_object list_of(ferretgold_image *image) {
    return (ferretgold_object){image};
}

ferretgold_status ferretgold_image_open(ferretgold_image **image) {
    ferretgold_object list = {NULL};
    if (image == NULL) {
        return FERRETGOLD_NULL;
    }
    const uint32_t status = ferretgold_raw_image_open(&list);
    if (status == FERRETGOLD_OK) {
        *image = list.at;
    }
    return (ferretgold_status)status;
}

ferretgold_status ferretgold_image_add(ferretgold_image *image, const ferretgold_key *key,
                                       const void *value, size_t length, uint32_t charge,
                                       uint32_t uses) {
    ferretgold_object list = list_of(image);
    if (image == NULL || key == NULL || (value == NULL && length != 0)) {
        return FERRETGOLD_NULL;
    }
    const void *bytes = value != NULL ? value : key;
    return (ferretgold_status)ferretgold_raw_image_add(&list, key, bytes, length, charge, uses);
}

void ferretgold_image_free(ferretgold_image *image) {
    if (image != NULL) {
        ferretgold_raw_image_free(list_of(image));
    }
}

ferretgold_status ferretgold_reopen(const ferretgold_config *config, ferretgold_image *image,
                                    ferretgold_cache **cache, size_t *left_out) {
    opened_cache opened = {{NULL}, {{NULL}}};
    ferretgold_config seeded;
    size_t count = 0;
    if (image == NULL) {
        return FERRETGOLD_NULL;
    }
    ferretgold_status status = cache_judge(config, cache, &seeded);
    ferretgold_cache *it = status == FERRETGOLD_OK ? cache_made(&seeded) : NULL;
    if (it == NULL) {
        ferretgold_image_free(image);
        return status == FERRETGOLD_OK ? FERRETGOLD_OUT_OF_MEMORY : status;
    }
    const ferretgold_config proved = cache_proved(&seeded);
    status = cache_begin(it,
                         ferretgold_raw_reopen(&proved, cache_number(), list_of(image),
                                               opened.client, proved.clients, &opened.cache,
                                               &count),
                         &opened, cache);
    if (status == FERRETGOLD_OK && left_out != NULL) {
        *left_out = count;
    }
    return status;
}

PLAINLY(ferretgold_reopen);
