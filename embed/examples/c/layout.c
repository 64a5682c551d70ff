/* layout : compiles only where the header's structs have the sizes and offsets that the library's
 * records have. */
#include <bobbinazure_layout.h>

int main(void) {
    return 0;
}
