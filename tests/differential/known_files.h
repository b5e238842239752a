/* DIMACS CNF files whose answers are known. */
#ifndef KNOWN_FILES_H
#define KNOWN_FILES_H

void known_files(void); /* compares them, and holds the reference to the known answers */

#endif
