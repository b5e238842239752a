/* Sheets whose ties are known. */
#ifndef KNOWN_TIES_H
#define KNOWN_TIES_H

void known_ties(void); /* compares them, and holds the reference to the lists */

#endif
