"""Certificates of partners: who holds one, whose it is in the settings, and what TLS asks for."""
import hashlib
import ssl
from dataclasses import dataclass
from pathlib import Path
from typing import Any

from .settings import Certificate, Partner, Ports, Settings

SHORT = {
    "commonName": "CN",
    "organizationName": "O",
    "organizationalUnitName": "OU",
    "countryName": "C",
    "localityName": "L",
    "stateOrProvinceName": "ST",
    "serialNumber": "serialNumber",
    "domainComponent": "DC",
    "emailAddress": "emailAddress",
}


@dataclass(frozen=True)
class Holder:
    """A certificate that was shown: the SHA-256 of its bytes, and the names of issuer and holder as `CN=..,O=..`."""

    fingerprint: str
    issuer: str
    name: str


def distinguished(parts: Any) -> str:
    """A name of X.509 as a text, in the order of the certificate."""
    pairs = [f"{SHORT.get(key, key)}={value}" for part in parts for key, value in part]
    return ",".join(pairs)


def holder_of(connection: ssl.SSLObject | ssl.SSLSocket) -> Holder | None:
    """Who has shown a certificate on a connection, which TLS has checked against the authorities."""
    raw, fields = connection.getpeercert(True), connection.getpeercert()
    if not raw or not fields:
        return None
    issuer, name = distinguished(fields.get("issuer", ())), distinguished(fields.get("subject", ()))
    return Holder(hashlib.sha256(raw).hexdigest(), issuer, name)


def is_of(certificate: Certificate | None, holder: Holder) -> bool:
    """Whether a certificate is the one that the settings name."""
    if certificate is None:
        return False
    if certificate.fingerprint:
        return certificate.fingerprint == holder.fingerprint
    return (certificate.issuer, certificate.name) == (holder.issuer, holder.name)


def partner_with(holder: Holder, settings: Settings) -> Partner | None:
    """The partner whose certificate this is."""
    return next((it for it in settings.partners.values() if is_of(it.certificate, holder)), None)


def own_context(certificate: Path, key: Path) -> ssl.SSLContext:
    """TLS 1.2 or later, with the desk's own certificate. OSError or ssl.SSLError where that can't be read."""
    context = ssl.SSLContext(ssl.PROTOCOL_TLS_SERVER)
    context.minimum_version = ssl.TLSVersion.TLSv1_2
    context.load_cert_chain(certificate, key)
    # (one who renews keys over and over would cost more than he pays)
    # pylint: disable-next=no-member
    context.options |= ssl.OP_NO_RENEGOTIATION | ssl.OP_NO_COMPRESSION
    return context


def partners_context(certificate: Path, key: Path, ports: Ports, is_required: bool) -> ssl.SSLContext:
    """TLS that asks for a certificate of a partner, signed by the authorities, not expired and not revoked."""
    context = own_context(certificate, key)
    context.load_verify_locations(ports.authorities)
    if ports.revoked:
        context.load_verify_locations(ports.revoked)
        context.verify_flags |= ssl.VERIFY_CRL_CHECK_LEAF
    context.verify_mode = ssl.CERT_REQUIRED if is_required else ssl.CERT_OPTIONAL
    return context
