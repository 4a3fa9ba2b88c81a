//! Everything wrong at once: long reports.

use crate::model::*;
use crate::names::*;
use crate::rng::Rng;

/// Each certificate breaks most of the rules; all are constrained by all above them.
pub fn wreck(rng: &mut Rng, scene: &mut Scene) {
    let chance = *rng.pick(&[100, 100, 90, 50]);
    for cert in &mut scene.chain.certificates {
        if rng.percent(chance) {
            wreck_one(rng, cert);
        }
        scene.lists[CRL].push(cert.fingerprint.clone());
    }
    scene.chain.host = Some(b"nowhere.example".to_vec());
}

fn wreck_one(rng: &mut Rng, cert: &mut Certificate) {
    (cert.not_before, cert.not_after) = (u64::MAX, 0);
    cert.inner_signature.push(1);
    cert.version = 1;
    cert.issuer_uid = Some(Text::new());
    (cert.key, cert.rsa_bits) = (RSA, 1000);
    cert.ku = Some(Part { mark: any_mark(rng), holds: 0 });
    cert.eku = Some(Part { mark: any_mark(rng), holds: vec![] });
    cert.bc = Some(Part { mark: any_mark(rng), holds: BasicConstraints { ca: false, path: Some(-1) } });
    cert.san = Some(Part { mark: any_mark(rng), holds: vec![] });
    cert.issuer.push(vec![]);
    let nc = cert.constraints();
    nc.excluded.push(GeneralName::Directory(vec![]));
    nc.excluded.push(GeneralName::Dns(b"*".to_vec()));
}
