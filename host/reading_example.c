/* The temperature of datapoint 9 in degrees, where it can be read. */
#include "tagobrelin.h"

static int read_temperature(const struct tagobrelin_server *server, float *degrees)
{
    struct tagobrelin_reading reading = tagobrelin_reading_of(server, 9);
    if (reading.number != TAGOBRELIN_TWO_OCTET) /* unreadable, or of another case, or there is no datapoint 9 */
        return 0;
    *degrees = reading.value;
    return 1;
}
