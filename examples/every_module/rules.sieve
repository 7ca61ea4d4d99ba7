// What we scan ourselves, and what is older than ten years, is no news.
if source.ip << '203.0.113.0/24' && classification.type == 'scanner' || time.source :before '520 weeks' {
    drop
}

// Where an infected host is controlled from is told at once, besides going its usual way.
if classification.type :in ['c2-server', 'malware-distribution'] || malware.name =~ '^(emotet|qakbot)' {
    path ['urgent', '_default']
    add comment = 'tell the owner today'
}

// The name of a host, where the feed has one. A text that is no domain name is a fault of its message.
add source.fqdn = extra.host
