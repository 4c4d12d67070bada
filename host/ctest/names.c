/* Prints what each answer says, one a line: the arguments are the answers. */
#include "butrask.h"

#include <stdio.h>
#include <stdlib.h>

int main(int count, char **answers) {
    for (int i = 1; i < count; i++) puts(butrask_refusal_name(strtoull(answers[i], NULL, 10)));
    return 0;
}
