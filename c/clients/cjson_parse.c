/* Parses a file of JSON so many times: cjson_parse FILE TIMES. */
#include "cJSON.h"

#include <stdio.h>
#include <stdlib.h>

int main(int count, char **words)
{
    static char text[1 << 20];
    FILE *file = count == 3 ? fopen(words[1], "rb") : NULL;
    size_t length;

    if (file == NULL)
        return 2;
    length = fread(text, 1, sizeof text, file);
    for (int i = atoi(words[2]); i > 0; i--) {
        cJSON *json = cJSON_ParseWithLength(text, length);

        if (json == NULL || cJSON_GetArraySize(json) != 10000)
            return 1;
        cJSON_Delete(json);
    }
    return 0;
}
