// Takes the place of the functions of tinyxml2.cpp that read a number by sscanf. Blanks before the
// number are skipped, and what follows it is not read, as sscanf does.

static std::string_view without_blanks( const char* str )
{
    return XMLUtil::SkipWhiteSpace( str, 0 );
}

// Writes the number of a result, if there is one.
template <typename To, typename From>
static bool Takes( const digits::result<From>& result, To* value )
{
    if ( result ) {
        *value = static_cast<To>( *result );
    }
    return static_cast<bool>( result );
}

// An integer, or the bits of one in hexadecimal digits.
template <typename T>
static bool ReadInteger( const char* str, bool isHex, T* value )
{
    const std::string_view text = without_blanks( str );
    if ( isHex ) {
        return Takes( digits::read<std::make_unsigned_t<T>>( text, 2, DIGITS_WORD_HEXADECIMAL ), value );
    }
    return Takes( digits::read<T>( text ), value );
}

bool XMLUtil::ToInt( const char* str, int* value )
{
    return ReadInteger( str, IsPrefixHex( str ), value );
}

bool XMLUtil::ToUnsigned( const char* str, unsigned* value )
{
    return ReadInteger( str, IsPrefixHex( str ), value );
}

bool XMLUtil::ToInt64( const char* str, int64_t* value )
{
    return ReadInteger( str, IsPrefixHex( str ), value );
}

bool XMLUtil::ToUnsigned64( const char* str, uint64_t* value )
{
    return ReadInteger( str, IsPrefixHex( str ), value );
}

bool XMLUtil::ToFloat( const char* str, float* value )
{
    return Takes( digits::read<float>( without_blanks( str ) ), value );
}

bool XMLUtil::ToDouble( const char* str, double* value )
{
    return Takes( digits::read<double>( without_blanks( str ) ), value );
}
