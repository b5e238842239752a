/* The sheets of document 01 whose answers it gives. */
#ifndef KNOWN_H
#define KNOWN_H

void known_sheets(void); /* compares them, and holds the reference to the document's answers */

#endif
