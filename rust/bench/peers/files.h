/* Folders of plain files, copied as a power cut would leave them. */
#ifndef FILES_H
#define FILES_H

/* Makes the folder `to` and copies every file of the folder `from` into it; what was never written stays a hole. */
void copy_folder(const char *from, const char *to);

/* Removes the folder with its files. */
void remove_folder(const char *folder);

#endif
