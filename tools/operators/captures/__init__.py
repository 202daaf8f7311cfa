"""Captures of a network: files of pcap and pcapng, live ones, and the datagrams and lines in them."""
