/* Files that pages, plots and CSVs are written to: the old one stays until the new one is whole. */
#ifndef COMMON_PAGE_FILE_H
#define COMMON_PAGE_FILE_H

#include <stdbool.h>
#include <stdio.h>

struct page_file {
    FILE *file;
    char *path, *temporary; /* what it becomes, and its name until then, if it has one */
    bool nameless;          /* it has none */
    const char *why;        /* after a failure */
};

/*
 * Begins a file that will be there as path. A file that is there must be empty or begin with the mark, by which a
 * program knows its own; folders, pipes and devices are refused. False leaves why, and nothing else.
 */
bool page_create(struct page_file *page, const char *path, const char *mark);

/* Ends it: what was written lies on disk and has taken the old one's place. False leaves why, and the old one as it was. */
bool page_finish(struct page_file *page);

#endif
