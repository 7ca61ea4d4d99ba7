// What is in this country goes to its own team, all else to partners. Of what no network is known nobody can be told.
if source.geolocation.cc == 'AT' {
    path 'national'
} elif :exists source.geolocation.cc {
    path 'partners'
} else {
    add comment = 'no network known'
    path 'partners'
}
