# YAML 1.2's core schema, by YAML::PP.
use strict;
use B;
use YAML::PP;
$SIG{__WARN__} = sub { };
my $yaml = YAML::PP->new(schema => ['Core']);

sub answer {
    my ($text) = @_;
    my ($value) = eval { $yaml->load_string($text) };
    return '-' if $@ || ref $value || !defined $value;
    my $flags = B::svref_2object(\$value)->FLAGS;
    return "i$value" if $flags & B::SVp_IOK;
    return '-' if !($flags & B::SVp_NOK);
    # an integer above 64 bits
    return 'i?' if $text =~ /^[-+]?[0-9]+$|^0[ox]/;
    return 'f' . unpack('H*', pack('d>', $value));
}

while (my $text = <STDIN>) {
    chomp $text;
    print answer($text), "\n";
}
