/* What has to have come up in the comparison. */
#ifndef DEMANDS_H
#define DEMANDS_H

void demand_all(unsigned long sheets); /* prints how often, after so many sheets; too seldom is a failure */

#endif
