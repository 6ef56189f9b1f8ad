/* The parts of the page that are the same in every one: how it looks, and how it is sorted and filtered. */
#ifndef WEAR_PAGE_PARTS_H
#define WEAR_PAGE_PARTS_H

/* Pieces of text in a row; null ends them. */
extern const char *const wear_page_style[];
extern const char *const wear_page_controls[];
extern const char *const wear_page_script[];

#endif
