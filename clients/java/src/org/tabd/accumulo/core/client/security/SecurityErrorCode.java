package org.tabd.accumulo.core.client.security;

/** Why something isn't allowed. */
public enum SecurityErrorCode {
    /** What has no code of its own. */
    DEFAULT_SECURITY_ERROR,
    /** Who asks is no user. */
    BAD_CREDENTIALS,
    /** A permission is missing. */
    PERMISSION_DENIED,
    /** There is no such user. */
    USER_DOESNT_EXIST,
    /** Is never told. */
    CONNECTION_ERROR,
    /** There is such a user already. */
    USER_EXISTS,
    /** The permission isn't given to anybody. */
    GRANT_INVALID,
    /** A scan asks for an authorization that the user doesn't hold. */
    BAD_AUTHORIZATIONS,
    /** Is never told. */
    INVALID_INSTANCEID,
    /** There is no such table. */
    TABLE_DOESNT_EXIST,
    /** Is never told. */
    UNSUPPORTED_OPERATION,
    /** Is never told. */
    INVALID_TOKEN,
    /** Is never told. */
    AUTHENTICATOR_FAILED,
    /** Is never told. */
    AUTHORIZOR_FAILED,
    /** Is never told. */
    PERMISSIONHANDLER_FAILED,
    /** Is never told. */
    TOKEN_EXPIRED,
    /** Is never told. */
    SERIALIZATION_ERROR,
    /** Is never told. */
    INSUFFICIENT_PROPERTIES,
    /** Is never told. */
    NAMESPACE_DOESNT_EXIST
}
