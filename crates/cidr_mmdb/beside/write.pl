#!/usr/bin/perl
# Writes files of each record size and both versions, with and without aliases, with values of each type: write.pl FOLDER
# With a count it writes two files of so many rows of IPv4, with trees of IPv4 and of IPv6: write.pl FOLDER ROWS
use strict;
use warnings;
use MaxMind::DB::Writer::Tree;
use Math::BigInt;

my ($folder, $rows) = @ARGV;
die "write.pl FOLDER [ROWS]\n" unless $folder;
my %type = (
    name => 'utf8_string', asn => 'uint32', port => 'uint16', big => 'uint64', huge => 'uint128', signed => 'int32',
    latitude => 'double', ratio => 'float', yes => 'boolean', raw => 'bytes', list => [ 'array', 'uint32' ], inner => 'map',
    medium => 'utf8_string', long => 'utf8_string', longer => 'utf8_string',
);

sub value {
    my ($n) = @_;
    return {
        name => "row \"$n\"\n", asn => $n, port => $n % 65536, big => "" . ($n * 1000003),
        huge => Math::BigInt->new(2)->bpow(100)->badd($n)->bstr, signed => -$n, latitude => $n / 7, ratio => $n / 4, yes => $n % 2,
        raw => pack("N", $n), list => [ 1, 2, $n ], inner => { name => "inner \x{e9}", yes => 1 }, medium => "m" x (29 + $n % 300),
        ($n % 5 == 0 ? (long => "x" x 300) : ()), ($n % 17 == 0 ? (longer => "y" x 70000) : ()),
    };
}

sub written {
    my ($name, $tree) = @_;
    open my $file, '>:raw', "$folder/$name.mmdb" or die $!;
    $tree->write_tree($file);
    close $file or die $!;
}

for my $version ($rows ? (4, 6) : ()) {
    my $tree = MaxMind::DB::Writer::Tree->new(
        ip_version => $version, record_size => 24, database_type => 'Test', languages => ['en'], description => { en => 'rows' },
        map_key_type_callback => sub { $type{ $_[0] } // die "type of $_[0]" }, remove_reserved_networks => 0,
    );
    srand(7);
    for my $n (1 .. $rows) {
        my $length = 8 + int(rand(17));
        my $first = int(rand(2**32)) >> (32 - $length) << (32 - $length);
        my $octets = join('.', unpack('C4', pack('N', $first)));
        $tree->insert_network($version == 4 ? "$octets/$length" : "::$octets/" . ($length + 96), { name => "row " . $n % 500, asn => $n % 500 });
    }
    written("rows-v$version", $tree);
}
exit if $rows;

for my $size (24, 28, 32) {
    for my $version (4, 6) {
        for my $aliases ($version == 6 ? (0, 1) : (0)) {
            my $tree = MaxMind::DB::Writer::Tree->new(
                ip_version => $version, record_size => $size, database_type => 'Test', languages => ['en'],
                description => { en => "records of $size bits" }, map_key_type_callback => sub { $type{ $_[0] } // die "type of $_[0]" },
                ($version == 6 ? (alias_ipv6_to_ipv4 => $aliases) : ()), remove_reserved_networks => 0,
            );
            srand(7);
            for my $n (0 .. 799) {
                my $length = 3 + int(rand(30));
                my $first = int(rand(2**32)) >> (32 - $length) << (32 - $length);
                my $octets = join('.', unpack('C4', pack('N', $first)));
                my @groups = map { int(rand(65536)) } 1 .. 8;
                $groups[0] = 0x2400 + int(rand(64));
                my $network = $version == 4 ? "$octets/$length"
                    : $n % 2 ? "::$octets/" . ($length + 96)
                    : sprintf("%x:%x:%x:%x:%x:%x:%x:%x/%d", @groups, 8 + int(rand(100)));
                $tree->insert_network($network, value($n));
            }
            written("$size-v$version-a$aliases", $tree);
        }
    }
}
