# Perl's own reading: a text whose one numeric constant is the whole of it, and which eval accepts.
# Of `1..2` it says that the first number is 1.
use strict;
use overload;
no warnings;
our (@found, $kind);
my %handlers;
for my $it (qw(integer float binary)) {
    $handlers{$it} = sub { push @found, $_[0]; $kind = $it; $_[1] };
}
my $check = 'BEGIN { overload::constant(%handlers) }';

sub answer {
    my ($text) = @_;
    @found = ();
    # any other x repeats
    return '-' if substr($text, 2) =~ /x/ || $text =~ /^[^0]x/;
    my $is_fine = defined eval "$check $text";
    my ($first, $whole) = map { s/_//gr } $found[0], $text;
    my ($digits) = $text =~ /^([0-9_]+)\.\./;
    my $is_first = defined $digits && $digits =~ s/_//gr eq $first && defined eval $digits;
    return '-' . length $digits if $is_first;
    return '-' if !$is_fine || @found != 1 || lc $first ne lc $whole;
    my $value = eval $text;
    return "i$value" if $kind ne 'float' && $value =~ /^[0-9]+$/;
    return 'f' . unpack('H*', pack('d>', $value));
}

while (my $text = <STDIN>) {
    chomp $text;
    print answer($text), "\n";
}
