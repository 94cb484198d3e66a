//! The policy of canteen.policy, built in Rust, and its session, fed to the monitor. It prints what examples/canteen.out has.

use zolherima::{
    Connection, Cookies, Endpoint, Endpoints, Fault, Labels, Policy, PolicyBuilder, Record,
    Request, RequestKind, Scripts, Session, Step, Url,
};

const CANTEEN: u32 = 0;
const BANK: u32 = 1;
const ADS: u32 = 2;

const SESSION: u32 = 0;
const BALANCE: u32 = 1;

const TOP_UP: u8 = 0;
const TOP_UP_TYPED: u8 = 1;
const PAY: u8 = 2;
const BANNER: u8 = 3;

const SHOP: u8 = 0;
const PAYMENT: u8 = 1;
const BANNERS: u8 = 2;

const START: u8 = 0;
const PAID: u8 = 1;

fn http(host: u32) -> Endpoints {
    Endpoint::http(host).into_iter().collect()
}

fn https(host: u32) -> Endpoints {
    Endpoint::https(host).into_iter().collect()
}

fn url(address: Option<Endpoint>, readers: Endpoints, writers: Endpoints) -> Url {
    Url {
        address: address.expect("hosts are below 16"),
        is_entry: false,
        readers,
        writers,
    }
}

/// Scripts may learn of what the connection may.
fn connection(readers: Endpoints, writers: Endpoints) -> Connection {
    Connection {
        readers,
        script_readers: readers,
        writers,
    }
}

fn policy() -> Result<Policy, Fault> {
    let canteen = http(CANTEEN) | https(CANTEEN);
    let seen = canteen | http(BANK) | http(ADS);
    let paying = https(CANTEEN) | https(BANK);
    let showing = https(CANTEEN) | https(ADS);
    let cookie = |writers| Labels {
        readers: https(CANTEEN),
        writers,
    };
    let typed = url(Endpoint::http(CANTEEN), canteen, Endpoints::EVERYONE);
    let pay = url(
        Endpoint::https(BANK),
        canteen | http(BANK) | https(BANK),
        paying,
    );
    PolicyBuilder::new()
        .always_https(CANTEEN)
        .cookie(CANTEEN, SESSION, cookie(https(CANTEEN)))
        .cookie(CANTEEN, BALANCE, cookie(paying))
        .url(
            TOP_UP.into(),
            url(Endpoint::https(CANTEEN), seen, https(CANTEEN)),
        )
        .url(TOP_UP_TYPED.into(), typed)
        .partner(TOP_UP_TYPED.into(), TOP_UP.into())
        .url(PAY.into(), pay)
        .url(
            BANNER.into(),
            url(Endpoint::https(ADS), Endpoints::EVERYONE, showing),
        )
        .connection(SHOP.into(), connection(seen, https(CANTEEN)))
        .connection(PAYMENT.into(), connection(canteen | http(BANK), paying))
        .connection(BANNERS.into(), connection(http(ADS), showing))
        .build()
}

fn scripts() -> Option<Scripts> {
    let mut scripts = Scripts::new();
    let start = [
        Step::Picture {
            url: BANNER,
            connection: BANNERS,
        },
        Step::Request {
            url: PAY,
            connection: PAYMENT,
            handler: PAID,
        },
    ];
    let paid = [Step::Write {
        key: BALANCE as u8,
        register: 0,
    }];
    scripts.set(START.into(), &start)?;
    scripts.set(PAID.into(), &paid)?;
    Some(scripts)
}

fn session() -> [(&'static str, Record); 6] {
    let with_session = Cookies::NONE.with(SESSION, 7).expect("keys are below 8");
    let none = Cookies::NONE;
    [
        ("the page is loaded", Record::load(TOP_UP_TYPED, SHOP)),
        (
            "it comes with a session",
            Record::document_response(TOP_UP, SHOP, &with_session, START),
        ),
        (
            "the advertiser leads to the bank",
            Record::redirect(BANNER, BANNERS, &none, PAY),
        ),
        (
            "the banner comes",
            Record::picture_response(BANNER, BANNERS, &none),
        ),
        (
            "the bank has taken the money",
            Record::script_response(PAY, PAYMENT, &none, 250),
        ),
        ("the page is loaded again", Record::load(TOP_UP, SHOP)),
    ]
}

fn print(request: &Request) {
    let kind = match request.kind {
        RequestKind::Document => "document",
        RequestKind::Script { .. } => "script",
        RequestKind::Picture => "picture",
    };
    println!(
        "  {kind} request to URL {} on connection {}, cookies {:02x}",
        request.url,
        request.connection,
        request.cookies.key_map()
    );
}

fn main() -> Result<(), Box<dyn std::error::Error>> {
    let (policy, scripts) = (policy()?, scripts().ok_or("a script is too long")?);
    let mut monitor = Session::new(&policy, &scripts);
    for (what, record) in session() {
        match monitor.feed(&record) {
            Ok(sent) => {
                println!("{what}: accepted");
                for request in sent.requests {
                    print(&request?);
                }
            }
            Err(refusal) => {
                let missing = refusal.missing().map_or(32, Endpoint::number);
                println!(
                    "{what}: refused {}, endpoint {missing} is missing",
                    refusal.number()
                );
            }
        }
    }
    Ok(())
}
