#!/bin/sh
# Writes the lines of tokens.txt: each type of token_types.txt once or more, as openssl makes it of messages.cnf, and
# tokens around messages.
here=$(dirname "$0")
. "$here/value.sh"

# A token: a mechanism, two octets and what follows them, under the tag [APPLICATION 0] (openssl makes it primitive here).
token() {
    value "IMP:0A,FORMAT:HEX,OCTETSTRING:$(value "OID:$1")$2$3" | sed 's/^40/60/'
}

# What stands inside a token, under the octet of a SEQUENCE.
sequence() {
    echo "$1" | sed 's/^60/30/'
}

head_of Tokens
lines_of "$here/token_types.txt"
reply=$(token 1.2.840.113554.1.2.2.3 0401 "$(value SEQUENCE:tgt_rep)")
echo "KrbMessage<TgtRep> | $reply"
echo "KrbMessage<TgtRep> | ${reply}00 | written $reply"
echo "KrbMessage<TgtRep> | $(token 1.2.840.113554.1.2.2.3 0401 "$(value SEQUENCE:tgt_rep)00") | refused"
echo "KrbMessage<TgtRep>::to_sequence | $reply | written $(sequence "$reply")"
echo "ApplicationTag0<KrbMessage<TgtRep>> | $reply"
echo "ApplicationTag0<KrbMessage<TgtRep>> | $(sequence "$reply") | refused"
body=$(value EXP:10A,SEQUENCE:as_req)
short=$(token 1.3.6.1.5.2.5 0501 "$(value SEQUENCE:iakerb_header_short)$body")
proxied=$(token 1.3.6.1.5.2.5 0501 "$(value SEQUENCE:iakerb_header)$body")
echo "IAKerbProxyMessage<AsReq> | $proxied"
echo "IAKerbProxyMessage<AsReq> | $(token 1.3.6.1.5.2.5 0501 "$(value SEQUENCE:iakerb_header_extended)$body") | written $short"
echo "IAKerbProxyMessage<AsReq> | $(token 1.3.6.1.5.2.5 0500 "$(value SEQUENCE:iakerb_header)$body") | refused"
echo "IAKerbProxyMessage<AsReq> | $(token 1.2.840.113554.1.2.2 0501 "$(value SEQUENCE:iakerb_header)$body") | refused"
echo "ApplicationTag0<IAKerbProxyMessage<AsReq>> | $proxied"
echo "ApplicationTag0<IAKerbProxyMessage<AsReq>> | $short"
echo "ApplicationTag0<IAKerbProxyMessage<AsReq>> | $(sequence "$proxied") | refused"
echo "ApplicationTag0<IAKerbProxyMessage<AsReq>> | $(token 1.3.6.1.5.2.5 0501 "$(value SEQUENCE:iakerb_header_extended)$body") | refused"
echo "ApplicationTag0<IAKerbProxyMessage<AsReq>> | $(token 1.3.6.1.5.2.5 0500 "$(value SEQUENCE:iakerb_header)$body") | refused"
echo "ApplicationTag0<IAKerbProxyMessage<AsReq>> | $(token 1.2.840.113554.1.2.2 0501 "$(value SEQUENCE:iakerb_header)$body") | refused"
echo "IAKerbProxyMessage<AsReq>::to_sequence | $proxied | written $(sequence "$proxied")"
echo "IAKerbHeader | $(value SEQUENCE:iakerb_header_extended) | written $(value SEQUENCE:iakerb_header_short)"
