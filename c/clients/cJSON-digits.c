/* Takes the place of parse_number in cJSON.c: a number of JSON, its nearest double, and the int that
 * is nearest to it. No buffer is allocated, and no locale is read. */

static cJSON_bool parse_number(cJSON * const item, parse_buffer * const input_buffer)
{
    digits_number number;
    digits_outcome outcome;

    if ((input_buffer == NULL) || (input_buffer->content == NULL))
    {
        return false;
    }
    outcome = digits_read_json(input_buffer->content, input_buffer->length, input_buffer->offset, &number);
    if (outcome.status != DIGITS_OK)
    {
        return false;
    }
    item->valuedouble = number.value;
    if (number.value >= INT_MAX)
    {
        item->valueint = INT_MAX;
    }
    else if (number.value <= (double)INT_MIN)
    {
        item->valueint = INT_MIN;
    }
    else
    {
        item->valueint = (int)number.value;
    }
    item->type = cJSON_Number;
    input_buffer->offset = outcome.at;
    return true;
}
