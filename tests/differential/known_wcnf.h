/* Sheets with the whole WCNF text of each edition. */
#ifndef KNOWN_WCNF_H
#define KNOWN_WCNF_H

void known_wcnf(void); /* compares them, and holds the reference to the texts */

#endif
